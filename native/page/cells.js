// The cells of a row, each with its heading, as they are shown beside a finding.
import { rowAt } from "./rows.js";

const MOST_CELLS = 40, LONGEST_CELL = 300; // cells of a row, and characters of a cell

// The fields of a row. A row with a wrong quote has only its text.
function fieldsOf(sheet, { row, at }) {
    if (sheet.fields) return sheet.fields.get(row) ?? [];
    return rowAt(sheet.text, at, sheet.delimiter).fields ?? [sheet.text.slice(at, at + LONGEST_CELL).split(/[\r\n]/, 1)[0]];
}

// Pairs of a heading and a text, without empty cells, of the row at a place of one of these sheets.
export function cellsOf(sheets, place) {
    const sheet = place.sheet === undefined ? sheets[0] : sheets.find((it) => it.name === place.sheet);
    if (!sheet || place.row === undefined) return [];
    const pairs = fieldsOf(sheet, place).map((text, index) => [sheet.headings[index] || `column ${index + 1}`, text]);
    return pairs.filter(([, text]) => text).slice(0, MOST_CELLS).map((pair) => pair.map((it) => it.slice(0, LONGEST_CELL)));
}
