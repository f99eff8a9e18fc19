// A telegram or radio message: in words and units if it was read, else why it was refused, with the faulty bits marked.
import { make, paragraph, folded, shortened } from "./view.js";
import { partsOf, summaryOf } from "./words.js";
import { bitsOf, fieldAt, rowsOf } from "./bits.js";

const WIDTH = 32; // bits in a row
const SHOWN = 4000; // characters of a text
const VALUE = 500; // characters of the body of a packet
const NUMBER = /^\s*[-+]?[0-9]+([.,][0-9]+)?E[+-]?[0-9]+\s*$/i;

// The program's words for a fault.
export function faultWords(data, fault) {
    const words = data.reasons[fault.reason];
    return fault.reason >= 10 ? `${words} at ${fault.at} end ${fault.end}` : words;
}

// What the fault means, and its usual cause.
function meaningOf(data, { fault, isRadio, digits }) {
    const words = data.reasons[fault.reason];
    if (words === "not hexadecimal" && NUMBER.test(digits)) {
        return ["this is a number of a spreadsheet, whose digits are lost. Format the column as text, and copy the " +
            "digits again", ""];
    }
    const own = isRadio && (words !== "length" || fault.at === 8) ? data.messages[words] : undefined;
    return own ?? data.telegrams[words] ?? ["", ""];
}

function sentence(text) {
    return text ? `${text[0].toUpperCase()}${text.slice(1)}.` : "";
}

// The rows of bits with the faulty ones marked. Screen readers get them by number.
function bitRows(bits, fault) {
    const rows = rowsOf(bits, WIDTH, fault).map(({ first, pieces }) => {
        const marked = pieces.map((it) => (it.isFaulty ? make("mark", {}, it.text) : it.text));
        return [`${String(first).padStart(4)}  `, ...marked, "\n"];
    });
    const label = "bits, by the number of the first in each row";
    return make("pre", { tabindex: "0", role: "region", "aria-label": label }, rows);
}

// What is shown of a refused telegram or message.
export function refusedView(data, record) {
    if (!record.fault) return [paragraph("Memory ran out before there was an answer.")];
    const [meaning, cause] = meaningOf(data, record), { fault } = record;
    const shown = [paragraph(sentence(meaning))];
    if (cause) shown.push(paragraph(`Usual cause: ${cause}.`));
    const bits = fault.reason >= 10 ? bitsOf(record.digits) : undefined;
    if (bits) {
        const field = fieldAt(data, bits, record.isRadio, fault.at), last = fault.end - 1;
        const where = fault.end > fault.at ? `Faulty bits: ${fault.at} to ${last}` : `The bits end at ${fault.at}`;
        shown.push(paragraph(`${where}${field ? `. The field there: ${field}` : ""}.`), bitRows(bits, fault));
    }
    return [...shown, digitsView(record)];
}

// The text itself. A long one is cut.
function digitsView({ digits, size }) {
    return make("p", {}, `Text (${size} characters): `, make("span", { class: "digits" }, shortened(digits, SHOWN)));
}

function lineRow(line) {
    const look = line.depth ? `deep${Math.min(line.depth, 3)}` : undefined;
    const heading = (text, more) => make("th", { scope: "row", class: look, ...more }, text);
    if (line.heading) return make("tr", { class: "part" }, heading(line.heading, { colspan: 4 }));
    const value = make("td", { class: "number" }, shortened(line.value, VALUE));
    const about = make("td", { class: "about about-cell" }, line.about);
    return make("tr", {}, heading(line.name), value, make("td", {}, line.words), about);
}

function partTable(part, isMarked) {
    const headings = [["variable"], ["number"], ["in words"], ["what it is", "about-cell"]];
    const head = headings.map(([text, look]) => make("th", { scope: "col", class: look }, text));
    const title = isMarked ? make("mark", {}, part.title) : part.title;
    const whole = make("table", {}, make("caption", {}, title), make("thead", {}, make("tr", {}, head)),
        make("tbody", {}, part.lines.map(lineRow)));
    return make("div", { class: "wide", tabindex: "0", role: "region", "aria-label": part.title }, whole);
}

// What is shown of one that was read: a table for its head and each packet. Packets with a finding are marked.
export function readView(data, record, marked = []) {
    const parts = partsOf(data, JSON.parse(record.text));
    const tables = parts.map((part, index) => partTable(part, marked.includes(index - 1)));
    return [...tables, digitsView(record)];
}

// A box for a telegram or message. Its label says where it is, and `found` names its findings.
export function recordView(data, label, record, found = [], marked = []) {
    const isRead = record.status === 0;
    const why = () => (record.fault ? faultWords(data, record.fault) : "memory");
    const words = isRead ? summaryOf(JSON.parse(record.text)) : `refused: ${why()}`;
    const summary = [`${label}: `, isRead ? words : make("span", { class: "found" }, words)];
    if (found.length) summary.push(make("span", { class: "found" }, ` (${found.join("; ")})`));
    const fill = () => (isRead ? readView(data, record, marked) : refusedView(data, record));
    return folded(summary, fill, isRead && !found.length ? undefined : "faulty");
}
