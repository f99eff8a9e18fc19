// The telegrams of a table: a row for each, with the name of its group, below a row of headings. The rules, their order
// and their words are those of the proved crate etcs_table. This file is not proved.
import { rowsOf } from "./rows.js";
import { FEWEST_DIGITS, looksLikeTelegram } from "./looks.js";

const SEARCHED = 20; // rows in which a delimiter has to give the headings
const MOST_ROWS = 1000000;
const ROWS_STEP = 5000; // rows between two reports of progress
const LONGEST_NAME = 100; // characters of the name of a sheet
const NO_DIGITS = "the telegram is not hexadecimal";
const COLUMNS = ["group", "telegram", "aspect", "balise"];
const KINDS = { number: "a number, whose digits can be lost", error: "an error value", formula: "a formula without a value",
    truth: "a truth value" }; // of cells of a workbook that are no text
const EXACT = /^-?[0-9]{1,15}([.][0-9]{1,6})?$/; // a number of a cell that is a name
const EDGE = /^[ \t]|[ \t]$/, BLANKS = /[ \t]+/g, HEXADECIMAL = /^[0-9a-fA-F]*$/, NUMBER = /^[0-9]{0,4}$/;

// A heading in small letters. Only those of ASCII have two cases.
function small(text) {
    return text.replace(/[A-Z]/g, (letter) => letter.toLowerCase());
}

// The places of a heading in a row.
function placesOf(fields, word) {
    const wanted = small(word);
    return [...fields.keys()].filter((index) => fields[index].length === word.length && small(fields[index]) === wanted);
}

function isHeading(fields, words) {
    return placesOf(fields, words.group).length > 0 && placesOf(fields, words.telegram).length > 0;
}

function digitsOf(text) {
    return text.replace(BLANKS, "");
}

function readsAsTelegram(text) {
    const digits = text.length < FEWEST_DIGITS ? "" : digitsOf(text);
    return digits.length >= FEWEST_DIGITS && HEXADECIMAL.test(digits);
}

// What is wrong with a cell of a workbook that is no text: nothing with a number in a column of names.
function cellReason({ kind, reference }, text, name) {
    if (kind === "number" && name !== "telegram" && EXACT.test(text)) return undefined;
    return `cell ${reference} is ${KINDS[kind]}`;
}

// The reader of one sheet: a file of separated values, or a sheet of a workbook with this name.
class SheetReader {
    constructor(words, sheet) {
        Object.assign(this, { words, sheet, entries: [], faults: [], elsewhere: [], telegrams: 0 });
        this.columns = undefined; // where they are, as soon as the headings were found
    }

    fault(row, reason, digits) {
        this.faults.push({ ...this.place(row), reason, digits });
    }

    place({ number, at }) {
        return { sheet: this.sheet, row: number, at };
    }

    // Takes the headings, or a row above them.
    head(row) {
        if (!isHeading(row.fields, this.words)) {
            if (row.fields.some(readsAsTelegram)) this.fault(row, "a telegram above the headings");
            this.lookAt(row);
            return;
        }
        this.columns = { width: row.fields.length, headings: row.fields };
        for (const name of COLUMNS) {
            const places = placesOf(row.fields, this.words[name]);
            if (places.length > 1) this.fault(row, `heading ${name} twice`);
            this.columns[name] = places[0];
        }
    }

    // Notes what looks like a telegram and is in no column of telegrams.
    lookAt(row) {
        row.fields.forEach((text, index) => {
            if (index !== this.columns?.telegram && looksLikeTelegram(text)) {
                this.elsewhere.push({ ...this.place(row), column: this.columns?.headings[index] ?? `${index + 1}` });
            }
        });
    }

    field(row, name) {
        return row.fields[this.columns[name]] ?? "";
    }

    cellReasons(row) {
        if (!row.odd) return [];
        const odd = COLUMNS.filter((name) => row.odd[this.columns[name]]);
        return odd.map((name) => cellReason(row.odd[this.columns[name]], this.field(row, name), name)).filter(Boolean);
    }

    // What is wrong with a row, in the order in which it is looked at.
    reasonsOf(row, [group, telegram, aspect, balise]) {
        const isWide = row.fields.slice(this.columns.width).some(Boolean);
        const checks = [
            [!group, "no group"], [!telegram, "no telegram"], [isWide, "text to the right of the headings"],
            [EDGE.test(group), "a blank at an end of the group"], [EDGE.test(aspect), "a blank at an end of the aspect"],
            [!HEXADECIMAL.test(digitsOf(telegram)), NO_DIGITS],
            [!NUMBER.test(balise), "the balise is not a number of up to four digits"],
        ];
        return [...this.cellReasons(row), ...checks.filter(([isWrong]) => isWrong).map(([, reason]) => reason)];
    }

    // Takes a row below the headings.
    body(row) {
        if (!row.fields.some(Boolean)) return;
        const texts = COLUMNS.map((name) => this.field(row, name)), [group, telegram, aspect, balise] = texts;
        const [reason] = this.reasonsOf(row, texts);
        this.lookAt(row);
        if (telegram) this.telegrams++;
        if (reason) this.fault(row, reason, reason === NO_DIGITS ? digitsOf(telegram) : undefined);
        const number = balise === "" ? undefined : Number(balise);
        this.entries.push({ ...this.place(row), group, aspect, number, digits: digitsOf(telegram) });
    }

    take(row) {
        if (this.columns) this.body(row);
        else this.head(row);
    }
}

// The text of bytes in UTF-8 without its mark; nothing if it is not UTF-8.
function textOf(bytes) {
    try {
        const text = new TextDecoder("utf-8", { fatal: true, ignoreBOM: true }).decode(bytes);
        return text.startsWith("\ufeff") ? text.slice(1) : text;
    } catch {
        return undefined;
    }
}

// Whether one of the first rows has the headings, if this is the delimiter.
function givesHeading(text, delimiter, words) {
    let left = SEARCHED;
    for (const row of rowsOf(text, delimiter)) {
        if (row.wrong || left-- === 0) return false;
        if (isHeading(row.fields, words)) return true;
    }
    return false;
}

// A table without rows, for this reason.
function refused(reason) {
    return { entries: [], faults: [{ reason }], elsewhere: [], telegrams: 0, sheets: [] };
}

// The telegrams of a file of separated values, and its faults in their order. `tell` gets the progress.
export function readTable(bytes, words, tell) {
    const text = textOf(bytes);
    if (text === undefined) return refused("not UTF-8");
    const delimiters = [",", ";", "\t"].map((it) => it.charCodeAt(0));
    const [delimiter, other] = delimiters.filter((it) => givesHeading(text, it, words));
    if (delimiter === undefined) return refused("no heading row");
    if (other !== undefined) return refused("two delimiters give a heading row");
    const reader = new SheetReader(words);
    let wrong;
    for (const row of rowsOf(text, delimiter)) {
        if (row.number % ROWS_STEP === 0) tell({ step: `row ${row.number}`, part: row.at / text.length });
        if (row.wrong) wrong = row;
        else reader.take(row);
        if (reader.entries.length > MOST_ROWS) throw new Error(`the table has more than ${MOST_ROWS} rows`);
    }
    if (wrong) reader.fault(wrong, wrong.wrong);
    const faults = reader.entries.length || wrong ? reader.faults : [...reader.faults, { reason: "no telegram" }];
    return { ...reader, faults, sheets: [{ text, delimiter, headings: reader.columns.headings }] };
}

// The same for the sheets of a workbook, whose rows come with their cells. Sheets without headings are not read.
export function readSheets(book, words) {
    const read = { entries: [], faults: [], elsewhere: book.elsewhere, telegrams: 0, sheets: [], unread: [] };
    for (const { name, rows } of book.sheets) {
        const reader = new SheetReader(words, name);
        for (const row of rows) reader.take(row);
        if (!reader.columns) {
            read.unread.push(name);
            reader.faults.forEach((it) => { it.reason = "a telegram in a sheet without headings"; });
        }
        for (const key of ["entries", "faults", "elsewhere"]) read[key] = read[key].concat(reader[key]);
        read.telegrams += reader.telegrams;
        const fields = new Map(rows.map((it) => [it.number, it.fields]));
        read.sheets.push({ name, fields, headings: reader.columns?.headings ?? [] });
    }
    if (read.unread.length === read.sheets.length) read.faults.push({ reason: "no heading row" });
    else if (!read.entries.length) read.faults.push({ reason: "no telegram" });
    return read;
}

// Where something of a table is, such as "row 7" or "sheet Line row 7".
export function placeText({ sheet, row }) {
    const inSheet = sheet === undefined ? "" : `sheet ${sheet.slice(0, LONGEST_NAME)}`;
    return [inSheet, row === undefined ? "" : `row ${row}`].filter(Boolean).join(" ");
}

// A fault of a table in words.
export function faultText(fault) {
    const place = placeText(fault);
    return place ? `${place}: ${fault.reason}` : fault.reason;
}
