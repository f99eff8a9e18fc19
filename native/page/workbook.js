// The sheets of a workbook (.xlsx) as rows of texts. The browser unpacks its parts and reads their XML. This is not proved.
import { zipParts, unpacked } from "./zip.js";
import { looksLikeTelegram } from "./looks.js";

const MOST_COLUMNS = 16384, MOST_ROWS = 1048576; // of a sheet, as a spreadsheet has
const PIECE = 500000; // characters of a sheet that are read at a time
const PAGE = "http://www.w3.org/1999/xhtml";
const TYPES = "http://schemas.openxmlformats.org/officeDocument/2006/relationships";
const OF_CELLS = { n: "number", b: "truth", e: "error" }; // what cells are that are no text
const OTHER = /^xl\/.*\.(xml|vml)$/, UNSEARCHED = /\.bin$|^xl\/embeddings\//;
const SKIPPED = /^xl\/(styles|theme\/.*|workbook|sharedstrings|calcchain|metadata)\.xml$|_rels/;

function brief(text) {
    return text.slice(0, 100);
}

function wrong(what) {
    return new Error(`the workbook cannot be read: ${what}. Save it again, or save the table as CSV`);
}

// ---- XML

// The elements of this name below another one, whatever their prefix.
function all(element, name) {
    return [...element.getElementsByTagNameNS("*", name)];
}

// The children of this name.
function* children(element, name) {
    for (let it = element?.firstElementChild; it; it = it.nextElementSibling) if (it.localName === name) yield it;
}

function child(element, name) {
    return children(element, name).next().value;
}

function isTrue(element, name) {
    return ["1", "true"].includes(element.getAttribute(name));
}

function xmlOf(name, text) {
    const form = new DOMParser().parseFromString(text, "application/xml");
    if (all(form, "parsererror").length) throw wrong(`the part ${brief(name)} is no XML`);
    return form;
}

// The XML of a sheet without its rows, and these in pieces, each as the XML of a sheet: a whole one would block the page.
function piecesOf(text) {
    const root = /<((?:\w+:)?)worksheet(?:\s[^>]*)?>/.exec(text);
    const start = /<((?:\w+:)?)sheetData(?:\s[^>]*[^/>])?>/.exec(text);
    const end = start ? text.lastIndexOf(`<\/${start[1]}sheetData>`) : -1;
    if (!root || end < 0) return { frame: text, pieces: [] };
    const first = start.index + start[0].length, pieces = [];
    const after = `<\/${start[1]}sheetData><\/${root[1]}worksheet>`;
    for (let at = first, next; at < end; at = next) {
        const row = text.indexOf(`<\/${start[1]}row>`, at + PIECE);
        next = row < 0 || row > end ? end : text.indexOf(">", row) + 1;
        pieces.push(`${root[0]}${start[0]}${text.slice(at, next)}${after}`);
    }
    return { frame: text.slice(0, first) + text.slice(end), pieces };
}

// The parts of a workbook as XML.
class Package {
    constructor(bytes) {
        Object.assign(this, { bytes, parts: zipParts(bytes), read: new Set() });
    }

    has(name) {
        return this.parts.has(name.toLowerCase());
    }

    async text(name) {
        const part = this.parts.get(name.toLowerCase());
        if (!part) throw wrong(`the part ${brief(name)} is missing`);
        this.read.add(name.toLowerCase());
        const bytes = await unpacked(this.bytes, part);
        try {
            return new TextDecoder("utf-8", { fatal: true }).decode(bytes);
        } catch {
            throw wrong(`the part ${brief(name)} is not in UTF-8`);
        }
    }

    // The text of XML that defines nothing of its own, and is no page.
    async source(name) {
        const text = await this.text(name), what = `the part ${brief(name)}`;
        if (/<!(?:DOCTYPE|ENTITY)/i.test(text)) throw wrong(`${what} has a document type`);
        if (text.includes(PAGE)) throw wrong(`${what} has elements of a page`);
        if (/^<\?xml[^>]*encoding\s*=\s*["'](?!utf-?8["'])/i.test(text)) throw wrong(`${what} is not in UTF-8`);
        return text;
    }

    async xml(name) {
        return xmlOf(name, await this.source(name));
    }

    // The relationships of a part: kind and part of each, by its id.
    async relations(name) {
        const place = name.lastIndexOf("/") + 1, own = `${name.slice(0, place)}_rels/${name.slice(place)}.rels`;
        const found = this.has(own) ? all(await this.xml(own), "Relationship") : [];
        return new Map(found.map((it) => {
            const kind = (it.getAttribute("Type") ?? "").split("/").at(-1), target = it.getAttribute("Target") ?? "";
            const isOutside = it.getAttribute("TargetMode") === "External";
            const path = isOutside ? "" : new URL(target, `file:///${name.slice(0, place)}`).pathname.slice(1);
            return [it.getAttribute("Id"), { kind, path: decodeURIComponent(path) }];
        }));
    }
}

// ---- cells

// The text of a string: its own or that of its runs, without the readings of Asian characters.
function stringText(element) {
    const own = [...children(element, "t")].map((it) => it.textContent);
    return own.join("") + [...children(element, "r")].map(stringText).join("");
}

// The number of a column by its letters, from 0 on.
function columnOf(letters) {
    return [...letters].reduce((number, letter) => number * 26 + letter.charCodeAt(0) - 64, 0) - 1;
}

// A cell: its text, what it is if that is no text, and whether its value was calculated.
function cellOf(element, strings) {
    const type = element.getAttribute("t") ?? "n", value = child(element, "v")?.textContent ?? "";
    const formula = child(element, "f"), isFormula = Boolean(formula);
    if (type === "inlineStr") return { text: stringText(child(element, "is")) };
    if (value === "") return formula ? { text: `=${formula.textContent}`, kind: "formula" } : { text: "" };
    if (type === "b") return { text: value === "1" ? "TRUE" : "FALSE", kind: "truth", isFormula };
    if (type !== "s") return { text: value, kind: OF_CELLS[type], isFormula };
    const text = /^[0-9]+$/.test(value) ? strings[Number(value)] : undefined;
    if (text === undefined) throw wrong("a cell has a text that is missing");
    return { text, isFormula };
}

// A reader of the rows of a sheet. Rows and cells have to follow each other.
class Rows {
    constructor(strings) {
        Object.assign(this, { strings, rows: [], cells: 0, formulas: 0, hidden: [] });
    }

    take(element) {
        const before = this.rows.at(-1)?.number ?? 0, number = Number(element.getAttribute("r") ?? before + 1);
        const isNext = Number.isInteger(number) && number > before && number <= MOST_ROWS;
        if (!isNext) throw wrong(`a row with a wrong number follows row ${before}`);
        const row = { number, fields: [], odd: undefined };
        for (const it of children(element, "c")) this.cell(row, it);
        if (isTrue(element, "hidden")) this.hidden.push(number);
        this.rows.push(row);
    }

    cell(row, element) {
        const own = element.getAttribute("r"), parts = /^([A-Z]{1,3})([0-9]+)$/.exec(own ?? "");
        const isOther = own !== null && Number(parts?.[2]) !== row.number;
        if (isOther) throw wrong(`its cell ${own.slice(0, 20)} is in row ${row.number}`);
        const column = parts ? columnOf(parts[1]) : row.fields.length;
        const isNext = column >= row.fields.length && column < MOST_COLUMNS;
        if (!isNext) throw wrong(`the cells of row ${row.number} are not in order`);
        while (row.fields.length < column) row.fields.push("");
        const { text, kind, isFormula } = cellOf(element, this.strings);
        row.fields.push(text);
        this.cells++;
        if (isFormula) this.formulas++;
        if (kind) (row.odd ??= {})[column] = { kind, reference: own ?? `${column + 1} of row ${row.number}` };
    }

    // Takes the rows of a piece. A cell that is in none of them is refused.
    piece(form, name) {
        const before = this.cells;
        for (const it of children(all(form, "sheetData")[0], "row")) this.take(it);
        const isWhole = all(form, "c").length === this.cells - before;
        if (!isWhole) throw wrong(`the sheet ${brief(name)} has cells in none of its rows`);
    }
}

// ---- sheets

// What an engineer should know of a sheet.
function notesOf(name, form, { hidden, formulas }, isHidden) {
    const columns = all(form, "col").filter((it) => isTrue(it, "hidden")).length, merged = all(form, "mergeCell").length;
    const more = hidden.length > 10 ? ` and ${hidden.length - 10} more` : "";
    const seen = [isHidden && "the sheet is hidden", columns && "it has hidden columns",
        hidden.length && `hidden rows: ${hidden.slice(0, 10).join(", ")}${more}`,
        formulas && `${formulas} cells are results of formulas, whose stored values were read`,
        merged && `it has ${merged} merged ranges, of which only the first cell has a text`].filter(Boolean);
    return seen.length ? [`Sheet ${brief(name)}: ${seen.join("; ")}. All of it was read.`] : [];
}

// Texts that look like telegrams in parts that are no sheets, and parts that were not searched.
async function besides(parts) {
    const found = [], notes = [];
    for (const name of parts.parts.keys()) {
        const isUnsearched = UNSEARCHED.test(name), isOther = OTHER.test(name) && !SKIPPED.test(name);
        if (isUnsearched) notes.push(`The part ${brief(name)} of the workbook was not searched for telegrams.`);
        if (isUnsearched || !isOther || parts.read.has(name)) continue;
        const texts = (await parts.text(name)).split(/<[^>]*>/).filter(looksLikeTelegram);
        found.push(...texts.slice(0, MOST_ROWS / 100).map(() => ({ sheet: brief(name), column: "of no sheet" })));
    }
    return { found, notes };
}

// Lets the page answer its user.
function pause() {
    return new Promise((resolve) => { setTimeout(resolve); });
}

async function sheetOf(parts, strings, { name, isHidden, path }, tell) {
    const { frame, pieces } = piecesOf(await parts.source(path)), rows = new Rows(strings), form = xmlOf(path, frame);
    if (all(form, "c").length) throw wrong(`the sheet ${brief(name)} has cells in none of its rows`);
    for (const [index, piece] of pieces.entries()) {
        rows.piece(xmlOf(path, piece), name);
        tell({ step: `sheet ${brief(name)}, row ${rows.rows.at(-1)?.number}`, part: index / pieces.length });
        await pause();
    }
    return { name, rows: rows.rows, notes: notesOf(name, form, rows, isHidden) };
}

async function stringsOf(parts, relations) {
    const one = [...relations.values()].find((it) => it.kind === "sharedStrings");
    return one ? all(await parts.xml(one.path), "si").map(stringText) : [];
}

// Where the workbook is in its package.
async function startOf(parts) {
    if (!parts.has("[content_types].xml")) throw wrong("it is no .xlsx, but an .ods or another zip");
    await parts.xml("[content_types].xml");
    if (parts.has("xl/workbook.bin")) throw wrong("it is an .xlsb: save it as .xlsx");
    const start = [...(await parts.relations("")).values()].find((it) => it.kind === "officeDocument")?.path ?? "";
    if (!/^xl\/.*\.xml$/.test(start)) throw wrong("it is no .xlsx, but a text or another document");
    return start;
}

// The sheets of a workbook with their rows, notes on what is hidden, and what looks like a telegram elsewhere.
export async function workbookOf(bytes, tell) {
    tell({ step: "unpacking the workbook" });
    const parts = new Package(bytes), start = await startOf(parts);
    const book = await parts.xml(start), relations = await parts.relations(start);
    const strings = await stringsOf(parts, relations), sheets = [], notes = [];
    for (const it of all(book, "sheet")) {
        const name = it.getAttribute("name") ?? "", relation = relations.get(it.getAttributeNS(TYPES, "id"));
        const isHidden = (it.getAttribute("state") ?? "visible") !== "visible";
        if (sheets.some((one) => one.name === name)) throw wrong(`it has the sheet ${brief(name)} twice`);
        if (relation?.kind !== "worksheet") notes.push(`The sheet ${brief(name)} has no cells, and was not read.`);
        else sheets.push(await sheetOf(parts, strings, { name, isHidden, path: relation.path }, tell));
    }
    if (!sheets.length) throw wrong("it has no sheet with cells");
    const { found, notes: more } = await besides(parts);
    return { sheets, elsewhere: found, notes: [...sheets.flatMap((it) => it.notes), ...notes, ...more] };
}
