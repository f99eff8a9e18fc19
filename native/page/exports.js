// Files that the page hands out.

// A file for the browser to keep.
export function keep(name, kind, parts) {
    const address = URL.createObjectURL(new Blob(parts, { type: kind }));
    const link = document.createElement("a");
    link.href = address;
    link.download = name;
    link.click();
    setTimeout(() => URL.revokeObjectURL(address), 60000);
}

// The SHA-256 of these bytes; nothing if the browser has none, as on a page by http.
export async function sumOf(bytes) {
    if (!globalThis.crypto?.subtle) return undefined;
    const sum = new Uint8Array(await crypto.subtle.digest("SHA-256", bytes));
    return [...sum].map((byte) => byte.toString(16).padStart(2, "0")).join("");
}

// The answer as one object. `found` is the library's own line of JSON, which is kept as it is. A table that was refused
// has none.
export function answerText(data, input, found, more = {}) {
    const head = { program: `balisecheck ${data.version}`, module_sha256: data.module, input: input.name };
    if (input.sum) head.input_sha256 = input.sum;
    const answer = found ? `,"answer":${found.trimEnd()}` : "";
    return `${JSON.stringify({ ...head, ...more }).slice(0, -1)}${answer}}\n`;
}

// A spreadsheet may take a cell that begins so for a formula. An apostrophe before it prevents that.
function safe(text) {
    return /^[=+\-@\t\r']/.test(text) ? `'${text}` : text;
}

// Rows as CSV.
export function csvText(headings, rows) {
    const lines = [headings, ...rows].map((row) => row.map((cell) => {
        const text = safe(String(cell ?? ""));
        return /[",\r\n]/.test(text) ? `"${text.replaceAll('"', '""')}"` : text;
    }).join(","));
    return `${lines.join("\r\n")}\r\n`;
}

export const FINDING_COLUMNS = ["finding", "name", "group", "aspect", "balise", "message", "packet", "direction"];

export function findingsText(findings) {
    const keys = ["rule", ...FINDING_COLUMNS.slice(1)];
    return csvText(FINDING_COLUMNS, findings.map((finding) => keys.map((key) => finding[key])));
}

export function refusedText(data, lines) {
    return csvText(["line", "read as", "reason", "at", "end"], lines.map((line) => {
        const fault = line.fault, reason = fault ? data.reasons[fault.reason] : "memory";
        const bits = fault?.reason >= 10 ? [fault.at, fault.end] : ["", ""];
        return [line.number, line.isRadio ? "message" : "telegram", reason, ...bits];
    }));
}

const PLACE_COLUMNS = ["aspect", "balise", "packet", "direction"];

// Findings of a table with their rows. `located` has the rows and the name of the group of each.
export function rowFindingsText(findings, located) {
    const headings = ["finding", "name", "sheet", "rows", "group", ...PLACE_COLUMNS];
    return csvText(headings, findings.map((it, index) => {
        const { name, rows } = located[index], sheets = [...new Set(rows.map((row) => row.sheet))];
        return [it.rule, it.name, sheets.join(", "), rows.map((row) => row.row).join(", "), name,
            ...PLACE_COLUMNS.map((key) => it[key])];
    }));
}

export function faultsText(faults) {
    return csvText(["sheet", "row", "reason"], faults.map(({ sheet, row, reason }) => [sheet, row, reason]));
}
