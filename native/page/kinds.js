// What an input is: a document, a table, a workbook, lines of telegrams and messages, or something that is not read here.

// Sentences on what is not read here, by kind. Each says what to do instead.
export const NOT_READ = {
    old: "This is an old workbook (.xls), or one with a password. Save it as .xlsx without a password, or as CSV.",
    ods: "This is a workbook of another kind. Save it as .xlsx or CSV.",
    pdf: "This is a PDF. Open a file that the tool of the telegrams has exported: a JSON document, or a text file with " +
        "a telegram on each line.",
    utf16: "This file is in UTF-16. Balisecheck reads UTF-8: save the file again in UTF-8, a table as CSV UTF-8.",
    binary: "This file has NUL bytes, so it is no text in UTF-8. Open a table that was saved as CSV UTF-8, a JSON " +
        "document, or a text file with a telegram on each line.",
    empty: "There is nothing to check: the input is empty.",
};

const STARTS = [
    ["workbook", [0x50, 0x4b, 0x03, 0x04]], ["old", [0xd0, 0xcf, 0x11, 0xe0]], ["pdf", [0x25, 0x50, 0x44, 0x46]],
    ["utf16", [0xff, 0xfe]], ["utf16", [0xfe, 0xff]],
];
const ENDINGS = [
    ["workbook", /\.(xlsx|xlsm)$/i], ["old", /\.xls$/i], ["ods", /\.(ods|xlsb)$/i], ["table", /\.(csv|tsv)$/i],
];
const HEAD = 4096; // bytes that are looked at
const FIRST = 20; // lines of a text that are looked at

// The kind of what is no text for this page, by its first bytes or the name of its file; else nothing.
function otherKind(name, head) {
    const start = STARTS.find(([, bytes]) => bytes.every((byte, index) => head[index] === byte));
    const ending = ENDINGS.find(([, form]) => form.test(name));
    const found = (start ?? ending)?.[0], isText = !found || found === "table";
    if (isText && head.includes(0)) return "binary";
    return found === "workbook" && ending?.[0] === "ods" ? "ods" : found;
}

// Whether a line has the separators of a table, and more than a telegram.
function isRow(line) {
    return /[;,\t]/.test(line) && !/^[0-9a-f]*$/i.test(line.trim());
}

// "document", "table", "workbook", "lines" or a key of NOT_READ, for the bytes of a file with this name or a pasted text.
export function kindOf(name, bytes) {
    const head = bytes.subarray(0, HEAD);
    if (!bytes.length) return "empty";
    const other = otherKind(name, head);
    if (other) return other;
    const text = new TextDecoder().decode(head).trim();
    if (text === "" && bytes.length <= HEAD) return "empty";
    if (text.startsWith("{") || text.startsWith("[")) return "document";
    return text.split("\n", FIRST).some(isRow) ? "table" : "lines";
}
