// The proved checker of ETCS telegrams for node and browsers. balisecheck.d.mts describes each function.
// What is below as base64 is the module of WebAssembly, which imports nothing.
const MODULE = `
@MODULE@
`;
const NEEDS = "Balisecheck needs WebAssembly with 64-bit memory: Chromium 133, Firefox 134, node 24, " +
    "or node 20 with the option --experimental-wasm-memory64";
const MEMORY = 3, CAPACITY = 4;
const KEPT = 1 << 26; // bytes of memory with which an instance is kept for the next call
const encoder = new TextEncoder(), decoder = new TextDecoder();
let most; // bytes of memory for a call, if there is a limit
let kept; // what the instance of the next call exports

export const version = "@VERSION@";

async function compiled() {
    const bytes = Uint8Array.from(atob(MODULE), (character) => character.charCodeAt(0));
    try {
        return await WebAssembly.compile(bytes);
    } catch (error) {
        throw new Error(`${NEEDS}. Here: ${error.message}`, { cause: error });
    }
}

const compiledModule = await compiled();

// Runs with an instance. After an exception, or after a call with much memory, the next call gets a new one.
function withInstance(run) {
    const its = kept ?? new WebAssembly.Instance(compiledModule).exports;
    kept = undefined;
    if (most !== undefined) its.balisecheck_limit(BigInt(most));
    const answer = run(its);
    if (most === undefined && its.memory.buffer.byteLength <= KEPT) kept = its;
    return answer;
}

function bytesOf(input) {
    if (typeof input === "string") return encoder.encode(input);
    if (input instanceof Uint8Array) return input;
    throw new TypeError("the input is neither a string nor a Uint8Array");
}

// The answer of a call whose text probably fits into this capacity. Addresses and lengths have 64 bits.
function answered(its, name, data, capacity, hasFault) {
    const blocks = [data.length || 1, 32, capacity].map((size) => its.balisecheck_take(BigInt(size)));
    const [input, cell, buffer] = blocks;
    let answer = { status: MEMORY, text: "" };
    if (blocks.every((it) => it)) {
        new Uint8Array(its.memory.buffer, Number(input), data.length).set(data);
        const given = [input, BigInt(data.length), buffer, BigInt(capacity), cell];
        if (hasFault) given.push(cell + 8n);
        const status = its[`balisecheck_${name}`](...given);
        const numbers = new BigUint64Array(its.memory.buffer, Number(cell), 4);
        const length = Number(numbers[0]);
        answer = { status, text: "", length };
        if (status < MEMORY) answer.text = decoder.decode(new Uint8Array(its.memory.buffer, Number(buffer), length));
        const reason = Number(numbers[1] & 0xffffffffn);
        if (hasFault && reason) answer.fault = { reason, at: Number(numbers[2]), end: Number(numbers[3]) };
    }
    for (const it of blocks.reverse()) if (it) its.balisecheck_give(it);
    return answer;
}

function call(name, input, ratio, hasFault = false) {
    const data = bytesOf(input);
    return withInstance((its) => {
        let answer = answered(its, name, data, Math.ceil(ratio * data.length) + 4096, hasFault);
        if (answer.status === CAPACITY) answer = answered(its, name, data, answer.length, hasFault);
        delete answer.length;
        return answer;
    });
}

export const check = (document) => call("check", document, 0.1);
export const findings = (document) => call("findings", document, 0.1);
export const decode = (lines, { radio = false } = {}) => call(radio ? "decode_radio" : "decode", lines, 8);
export const encode = (lines, { radio = false } = {}) => call(radio ? "encode_radio" : "encode", lines, 1);
export const telegram = (digits) => call("telegram", digits, 8, true);
export const message = (digits) => call("message", digits, 8, true);

export function limit(bytes) {
    if (bytes !== undefined && !(Number.isSafeInteger(bytes) && bytes >= 0 && bytes <= 2 ** 40)) {
        throw new RangeError("the limit is no number of bytes up to 2 to the power of 40");
    }
    most = bytes;
    kept = undefined;
}
