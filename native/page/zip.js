// The parts of a zip, each unpacked by the browser. What is damaged, hidden or too large is refused with a sentence.
const END = 0x06054b50, ENTRY = 0x02014b50, LOCAL = 0x04034b50;
const END_SIZE = 22, ENTRY_SIZE = 46, LOCAL_SIZE = 30;
const MOST = 100000000; // bytes of all parts, unpacked
const TABLE = Uint32Array.from({ length: 256 }, (_, byte) => {
    let sum = byte;
    for (let bit = 0; bit < 8; bit++) sum = sum & 1 ? (sum >>> 1) ^ 0xedb88320 : sum >>> 1;
    return sum;
});

// The checksum of these bytes that a zip has, CRC-32.
function crcOf(bytes) {
    let sum = 0xffffffff;
    for (const byte of bytes) sum = TABLE[(sum ^ byte) & 255] ^ (sum >>> 8);
    return ~sum >>> 0;
}

function damaged(what) {
    return new Error(`the workbook is damaged or cut short: ${what}. Copy it again, or save the table as CSV`);
}

// Where the record at the end begins: nothing may follow it.
function endOf(view) {
    const first = Math.max(0, view.byteLength - END_SIZE - 0xffff);
    for (let at = view.byteLength - END_SIZE; at >= first; at--) {
        const isLast = at + END_SIZE + view.getUint16(at + 20, true) === view.byteLength;
        if (isLast && view.getUint32(at, true) === END) return at;
    }
    throw damaged("it has no end, or other bytes behind its end");
}

// An entry of the directory, and where the next one begins.
function entryAt(bytes, view, at, end) {
    if (at + ENTRY_SIZE > end || view.getUint32(at, true) !== ENTRY) throw damaged("its directory is wrong");
    const [nameSize, extraSize, commentSize] = [28, 30, 32].map((field) => view.getUint16(at + field, true));
    const [sum, packed, size] = [16, 20, 24].map((field) => view.getUint32(at + field, true));
    const name = new TextDecoder().decode(bytes.subarray(at + ENTRY_SIZE, at + ENTRY_SIZE + nameSize));
    const next = at + ENTRY_SIZE + nameSize + extraSize + commentSize;
    const flags = view.getUint16(at + 8, true), method = view.getUint16(at + 10, true);
    return { name, flags, method, sum, packed, size, at: view.getUint32(at + 42, true), next };
}

function lookAt(part, known) {
    const what = `the part ${part.name.slice(0, 100)}`;
    if (known.has(part.name.toLowerCase())) throw damaged(`it has ${what} twice`);
    if (part.flags & 1) throw new Error("the workbook is protected by a password: save it without one");
    if (part.method !== 0 && part.method !== 8) throw damaged(`${what} is packed in an unknown way`);
}

// The parts by their names in small letters. None is unpacked yet.
export function zipParts(bytes) {
    const view = new DataView(bytes.buffer, bytes.byteOffset, bytes.byteLength);
    if (view.byteLength < END_SIZE) throw damaged("it is too short");
    const end = endOf(view), count = view.getUint16(end + 10, true), parts = new Map();
    let at = view.getUint32(end + 16, true), total = 0, first = Infinity;
    for (let index = 0; index < count; index++) {
        const part = entryAt(bytes, view, at, end);
        lookAt(part, parts);
        parts.set(part.name.toLowerCase(), part);
        total += part.size;
        first = Math.min(first, part.at);
        at = part.next;
    }
    if (at !== end) throw damaged("its directory has gaps");
    if (first !== 0) throw damaged("it has no parts, or other bytes in front of them");
    if (total > MOST) throw new Error(`the workbook has ${total} bytes unpacked, more than ${MOST}: save the table as CSV`);
    return parts;
}

// The packed bytes of a part, whose own record has to have the same name.
function packedOf(bytes, { name, at, packed }) {
    const view = new DataView(bytes.buffer, bytes.byteOffset, bytes.byteLength);
    const what = `the part ${name.slice(0, 100)}`, isHere = at + LOCAL_SIZE <= bytes.length;
    if (!isHere || view.getUint32(at, true) !== LOCAL) throw damaged(`${what} is missing`);
    const nameEnd = at + LOCAL_SIZE + view.getUint16(at + 26, true), start = nameEnd + view.getUint16(at + 28, true);
    const own = new TextDecoder().decode(bytes.subarray(at + LOCAL_SIZE, nameEnd));
    if (own !== name || start + packed > bytes.length) throw damaged(`${what} is not where it should be`);
    return bytes.subarray(start, start + packed);
}

// Unpacks until the bytes end, or are more than this.
async function inflated(packed, size) {
    const reader = new Blob([packed]).stream().pipeThrough(new DecompressionStream("deflate-raw")).getReader();
    const whole = new Uint8Array(size);
    for (let at = 0; ;) {
        const { done, value } = await reader.read();
        if (done) return whole.subarray(0, at);
        if (at + value.length > size) {
            reader.cancel().catch(() => undefined);
            return undefined;
        }
        whole.set(value, at);
        at += value.length;
    }
}

// The bytes of a part. Its size and checksum have to be those of the directory.
export async function unpacked(bytes, part) {
    const packed = packedOf(bytes, part), what = `the part ${part.name.slice(0, 100)}`;
    const found = part.method === 0 ? packed : await inflated(packed, part.size).catch(() => undefined);
    if (found?.length !== part.size || crcOf(found) !== part.sum) throw damaged(`${what} has other bytes than it should`);
    return found;
}
