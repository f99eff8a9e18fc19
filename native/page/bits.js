// The bits of a refused telegram or message, and the field at its fault. The layouts only give the field a name: the
// module has found the fault.
import { packetLayout } from "./words.js";

const DIGITS = /^[0-9a-fA-F]*$/;

// The bits of hexadecimal digits as a text of 0 and 1; nothing if there is another character.
export function bitsOf(digits) {
    if (!DIGITS.test(digits)) return undefined;
    return [...digits].map((digit) => Number.parseInt(digit, 16).toString(2).padStart(4, "0")).join("");
}

// The bits without the zeros after the user bits of a telegram. A text of another size has none.
export function userBits(bits, isRadio) {
    return isRadio ? bits : bits.slice(0, bits.length <= 216 ? 210 : 830);
}

class Walk {
    constructor(bits) {
        this.bits = bits;
        this.at = 0;
        this.fields = [];
    }

    number(width) {
        return Number.parseInt(this.bits.slice(this.at, this.at + width) || "0", 2);
    }

    // Takes a field, unless the bits have ended. Its value stays known for the rows that depend on it.
    row(row, known, packet) {
        const [name, numbers] = row.when;
        if (name && !numbers.includes(known[name])) return;
        if (this.at >= this.bits.length) throw new RangeError("the bits have ended");
        const width = row.bits || known.L_PACKET - (this.at - known.start); // (only a body has no width of its own)
        const value = row.bits ? this.number(width) : undefined;
        known[row.variable] = value;
        this.fields.push({ name: row.variable, at: this.at, width, value, packet });
        this.at += row.bits;
    }

    nodes(nodes, known, packet) {
        for (const node of nodes) {
            if (!node.nodes) this.row(node, known, packet);
            else if (node.count) this.list(node, known, packet);
            else this.option(node, known, packet);
        }
    }

    // What is there only if the bit before it is set.
    option(part, known, packet) {
        const [name, numbers] = part.nodes[0].when;
        if (numbers.includes(known[name])) this.nodes(part.nodes, known, packet);
    }

    // The first items, how many follow, and these.
    list(part, known, packet) {
        for (let index = 0; index < part.least; index++) this.nodes(part.nodes, known, packet);
        this.row(part.count, known, packet);
        const more = known[part.count.variable];
        for (let index = 0; index < more; index++) this.nodes(part.nodes, known, packet);
    }

    // The packets up to packet 255. The body of one that is not decoded is passed over.
    packets(layouts, isTrain) {
        for (let index = 0; this.bits.length - this.at >= 8; index++) {
            const number = this.number(8), start = this.at, known = { start };
            if (number === 255) return;
            this.nodes(packetLayout(layouts, number, isTrain).nodes, known, { number, index });
            if (known.L_PACKET !== undefined) this.at = Math.max(this.at, start + known.L_PACKET);
        }
    }
}

// The fields of a telegram or message up to where its bits end.
function fieldsOf(data, bits, isRadio) {
    const walk = new Walk(bits), kind = walk.number(8);
    const head = data.layouts[isRadio ? `message ${kind}` : "header"];
    try {
        if (head) walk.nodes(head.nodes, {});
        if (head) walk.packets(data.layouts, kind === 136 && isRadio);
    } catch (error) {
        if (!(error instanceof RangeError)) throw error;
    }
    return walk.fields;
}

// The field that begins at a fault, such as M_DUP with its number, in words; nothing if it has no name here.
export function fieldAt(data, all, isRadio, at) {
    const bits = userBits(all, isRadio);
    const field = fieldsOf(data, bits, isRadio).find((it) => it.at === at);
    if (!field) return "";
    const where = field.packet ? ` of packet ${field.packet.number} (index ${field.packet.index})` : "";
    const left = bits.length - at, needs = `needs ${field.width} bits, and ${left} ${left === 1 ? "is" : "are"} left`;
    const words = left < field.width ? needs : `is ${field.value}`;
    return `${field.name}${where} ${words}`;
}

// The bits in rows of this many, each with the number of its first bit, and as pieces that are faulty or not.
export function rowsOf(bits, width, { at, end }) {
    const rows = [];
    for (let first = 0; first < bits.length; first += width) {
        const last = Math.min(first + width, bits.length);
        const inside = [at, end].map((it) => Math.min(Math.max(it, first), last));
        const cuts = [...new Set([first, ...inside, last])];
        const pieces = cuts.slice(1).map((cut, index) => {
            return { text: bits.slice(cuts[index], cut), isFaulty: cuts[index] >= at && cut <= end };
        });
        rows.push({ first, pieces });
    }
    return rows;
}
