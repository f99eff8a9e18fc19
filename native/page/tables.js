// The answer to a table or workbook: its groups are judged as a document, and findings and refusals get their rows.
// A call of the library that takes a table would replace readTable, groupsOf and judged.
import { findings, telegram } from "./balisecheck.mjs";
import { faultText, placeText } from "./table.js";
import { groupsOf, documentOf, rowsOfFinding } from "./groups.js";

const TELEGRAMS_STEP = 1000; // telegrams between two reports of progress

// The entries whose digits are no telegram, each with its fault. Faults of rows have been found before.
function refusedEntries(entries, tell) {
    return entries.filter((entry, index) => {
        const total = entries.length;
        if (index % TELEGRAMS_STEP === 0) tell({ step: `telegram ${index} of ${total}`, part: index / total });
        const { status, fault } = telegram(entry.digits);
        if (status === 3) throw new Error("memory ran out");
        if (status !== 0) entry.fault = fault;
        return status !== 0;
    });
}

// The rows of one finding in words, such as "rows 7, 9".
function rowsText(rows) {
    const [{ sheet }] = rows, isOne = rows.every((it) => it.sheet === sheet);
    if (!isOne) return rows.map(placeText).join(", ");
    const before = placeText({ sheet }), numbers = rows.map((it) => it.row).join(", ");
    return `${before}${before && " "}${rows.length === 1 ? "row" : "rows"} ${numbers}`;
}

// The words of a finding after its rows, as the program has them.
function findingText(finding, rows) {
    const parts = ["aspect", "packet"].filter((key) => finding[key] !== undefined).map((key) => `${key} ${finding[key]}`);
    const where = [rowsText(rows), ...parts, ...(finding.direction ? [finding.direction] : [])].join(" ");
    return `${finding.rule} ${where}: ${finding.name}\n`;
}

// The report: the verdict, and each finding with its rows.
function report(counts, listed, rows) {
    if (!listed.length) return `yes: groups ${counts.groups}, telegrams ${counts.telegrams}\n`;
    return `no: findings ${listed.length}\n${listed.map((it, index) => findingText(it, rows[index])).join("")}`;
}

// An answer that refuses the table. The first fault is the reason, in the order of the proved reader of tables.
function refusal(faults, refused, words) {
    const all = [...faults, ...refused];
    return { status: 2, said: `refused: ${words(all[0])}\n`, listed: [], rows: [], faults: all };
}

// The judged table: what is said of it, its findings with their rows, its faults, and its document.
export function judged(table, reasonWords, tell) {
    const { entries } = table;
    entries.forEach((entry, index) => { entry.index = index; });
    const words = (it) => (it.fault ? `${placeText(it)}: ${reasonWords(it.fault)}` : faultText(it));
    if (table.faults.length) return refusal(table.faults, [], words);
    tell({ step: "grouping the rows" });
    const { groups, faults } = groupsOf(entries), form = documentOf(groups), text = JSON.stringify(form);
    tell({ step: "judging the groups" });
    const answer = faults.length ? { status: 2 } : findings(text);
    if (answer.status === 3) return { status: 3, listed: [], rows: [], faults: [], said: "" };
    if (answer.status === 2) return { ...refusal(refusedEntries(entries, tell), faults, words), groups };
    const { findings: listed = [] } = JSON.parse(answer.text), rows = listed.map((it) => rowsOfFinding(groups, it));
    const said = report({ groups: groups.length, telegrams: entries.length }, listed, rows);
    return { status: answer.status, found: answer.text, said, listed, rows, faults: [], groups, text };
}
