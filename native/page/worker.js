// What runs beside the page: it asks the module, whose text comes before this one, and reports progress.
// Each request has an id and the name of what to do; its answers have the same id.
import { check, findings, telegram, message } from "./balisecheck.mjs";
import { linesOf, isMessage, MOST_LINES } from "./lines.js";
import { readTable, readSheets, placeText, faultText } from "./table.js";
import { documentOf } from "./groups.js";
import { cellsOf } from "./cells.js";
import { judged } from "./tables.js";

const STEP = 1000; // lines between two reports of progress
const FEW = 10; // places that are named
const LONGEST = 20000; // characters of an input that are shown
const text = new TextDecoder();
let read = {}; // the input that was answered last

// A telegram or message with its line of JSON or its fault.
function record(digits, isRadio) {
    const answer = (isRadio ? message : telegram)(digits);
    const shown = typeof digits === "string" ? digits : text.decode(digits.subarray(0, LONGEST));
    return { digits: shown.slice(0, LONGEST), size: digits.length, isRadio, ...answer };
}

// What the document has for display. The verdict does not depend on it.
function parsed(bytes) {
    try {
        return JSON.parse(text.decode(bytes));
    } catch {
        return undefined;
    }
}

function aspectsOf(group) {
    return group?.aspects ?? (group ? [group] : []);
}

function listOf(value) {
    return Array.isArray(value) ? value : [];
}

// A place in the table that was read, in words, and its cells.
function placed(place) {
    return { ...place, where: placeText(place), cells: cellsOf(read.table.sheets, place) };
}

// The answer to a table. `reasons` are the words for the faults of telegrams.
function answerOf(table, reasons, tell) {
    const words = ({ reason, at, end }) => (reason >= 10 ? `${reasons[reason]} at ${at} end ${end}` : reasons[reason]);
    const { groups = [], ...its } = judged(table, words, tell);
    read = { table, its, groups, document: documentOf(groups), words };
    const { telegrams, elsewhere, unread = [] } = table, counts = { groups: its.text ? groups.length : 0, messages: 0 };
    const shown = elsewhere.slice(0, FEW).map((it) => `${placeText(it)} column ${it.column}`.slice(0, 200));
    return { status: its.status, found: its.found, said: its.said, ...counts, telegrams, unread, faults: its.faults.length,
        elsewhere: { count: elsewhere.length, shown } };
}

const doing = {
    table({ bytes, words, reasons }, tell) {
        return answerOf(readTable(bytes, words, tell), reasons, tell);
    },

    workbook({ book, words, reasons }, tell) {
        return answerOf(readSheets(book, words), reasons, tell);
    },

    // The rows of some findings of a table, each with its cells, and the names of their groups.
    located({ from, count, hasCells }) {
        const { listed, rows } = read.its, place = hasCells ? placed : ({ sheet, row }) => ({ sheet, row });
        return listed.slice(from, from + count).map((finding, index) => {
            const its = rows[from + index], shown = hasCells ? its.slice(0, FEW) : its;
            return { name: read.groups[finding.group].name, rows: shown.map(place), more: its.length - shown.length };
        });
    },

    // Some faults of a table: in words, with the cells of the row, and the telegram that is refused.
    faulty({ from, count, hasCells }) {
        return read.its.faults.slice(from, from + count).map((it) => {
            const words = it.fault ? read.words(it.fault) : it.reason, text = it.fault ? words : faultText(it);
            const label = it.fault ? `${placeText(it)}: ${words}` : text;
            const shown = hasCells ? { ...placed(it), record: it.digits && record(it.digits, false) } : {};
            return { sheet: it.sheet, row: it.row, reason: words, label, ...shown };
        });
    },

    // The document of a table.
    made() {
        return read.its.text;
    },

    document({ bytes }, tell) {
        tell({ step: "judging the document" });
        const found = findings(bytes);
        tell({ step: "writing the answer" });
        const said = check(bytes);
        read = { document: parsed(bytes) };
        const counts = ["groups", "messages"].map((key) => listOf(read.document?.[key]).length);
        return { status: found.status, found: found.text, said: said.text, groups: counts[0], messages: counts[1] };
    },

    lines({ bytes }, tell) {
        const lines = linesOf(bytes);
        if (!lines) return { tooMany: MOST_LINES };
        const judged = lines.map((line, index) => {
            if (index % STEP === 0) tell({ step: `line ${index} of ${lines.length}`, part: index / lines.length });
            const isRadio = isMessage(bytes, line), answer = record(bytes.subarray(line.at, line.end), isRadio);
            return { ...line, isRadio, status: answer.status, fault: answer.fault };
        });
        read = { bytes, lines: judged };
        const refused = judged.filter((line) => line.status !== 0);
        return { count: judged.length, refused, noMemory: refused.some((line) => line.status === 3) };
    },

    // The telegrams of a group, by aspect.
    group({ index }) {
        const aspects = listOf(aspectsOf(listOf(read.document?.groups)[index])), own = read.groups?.[index];
        const where = (aspect, balise) => own && { name: own.name, where: placeText(own.aspects[aspect][balise]) };
        return { aspects: aspects.map((it, aspect) => listOf(it?.balises).map((digits, balise) => {
            return { ...record(String(digits), false), ...where(aspect, balise) };
        })) };
    },

    message({ index }) {
        return { record: record(String(listOf(read.document?.messages)[index] ?? ""), true) };
    },

    // Some of the lines, each with its record: of all lines, or of those that are refused.
    some({ from, count, isRefused }) {
        const chosen = read.lines.filter((line) => (line.status !== 0) === isRefused).slice(from, from + count);
        return { records: chosen.map((it) => ({ ...it, ...record(read.bytes.subarray(it.at, it.end), it.isRadio) })) };
    },

    // All accepted lines as lines of JSON.
    decoded() {
        const accepted = read.lines.filter((line) => line.status === 0);
        return { text: accepted.map((it) => record(read.bytes.subarray(it.at, it.end), it.isRadio).text).join("") };
    },
};

self.onmessage = ({ data }) => {
    const tell = (more) => self.postMessage({ id: data.id, ...more });
    try {
        tell({ answer: doing[data.what](data, tell) });
    } catch (error) {
        tell({ failed: String(error?.message ?? error) });
    }
};
self.postMessage({ ready: true });
