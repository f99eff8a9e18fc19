// Answers calls of the module of WebAssembly as calls.c answers those of the library, in node or, by `answers`, in a
// browser. The third number of a call is here the most bytes of memory for it, and 0 is no limit. Requests for memory are not
// counted. `node calls.mjs MODULE` reads standard input.
const encoder = new TextEncoder(), decoder = new TextDecoder();
let limited = 0;

function answered(its, name, input, most) {
    const [command, radio] = name.split("_");
    if (most !== limited) its.limit(most || undefined); // (an instance of the module is kept for the next call)
    limited = most;
    const answer = its[command](input, { radio: radio !== undefined });
    const { reason, at, end } = answer.fault ?? { reason: 0, at: 0, end: 0 };
    const text = encoder.encode(answer.text);
    return [encoder.encode(`${answer.status} ${text.length} ${reason} ${at} ${end} 0\n`), text];
}

function joined(parts) {
    const whole = new Uint8Array(parts.reduce((sum, part) => sum + part.length, 0));
    let at = 0;
    for (const part of parts) {
        whole.set(part, at);
        at += part.length;
    }
    return whole;
}

export function answers(its, asked) {
    const parts = [];
    for (let at = 0; at < asked.length;) {
        const end = asked.indexOf(10, at);
        const [name, length, most] = decoder.decode(asked.subarray(at, end)).split(" ");
        at = end + 1 + Number(length);
        parts.push(...answered(its, name, asked.subarray(end + 1, at), Number(most)));
    }
    return joined(parts);
}

if (globalThis.process) {
    const { readFileSync, writeSync } = await import("node:fs");
    const given = answers(await import(process.argv[2]), readFileSync(0));
    for (let at = 0; at < given.length;) at += writeSync(1, given, at);
}
