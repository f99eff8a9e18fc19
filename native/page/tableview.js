// The answer to a table or workbook: findings and refusals at their rows, with the cells of these rows.
import { make, paragraph, button, table, folded, stepwise, shortened, counted } from "./view.js";
import { keep, sumOf, answerText, rowFindingsText, faultsText } from "./exports.js";
import { refusedView } from "./records.js";
import { DocumentView, whereText } from "./document.js";

const REFUSALS = 50; // refusals at a time
const CELL = 28; // characters of a cell beside a finding
// What to do about a table that is refused as a whole.
const HINTS = {
    "not UTF-8": "The file has another encoding, such as UTF-16 or Windows-1252. Save the table again as CSV UTF-8.",
    "no heading row": "None of the first 20 rows has the two headings that a table needs, each in a cell of its own. " +
        "State the headings of your table above, or rename them.",
    "two delimiters give a heading row": "A table has one row of headings, and one delimiter: comma, semicolon or tab.",
    "no telegram": "No row below the headings has a telegram.",
};
const OF_A_ROW = "The whole table is refused for this row. Correct it, and check the table again.";
const READER = "the JavaScript of this page, which is not proved";

// A row of the table beside a finding.
function rowView({ where, cells }) {
    const cut = (text) => (text.length > CELL ? `${text.slice(0, CELL)}..` : text);
    const texts = cells.map(([heading, text]) => `${cut(heading)} ${cut(text)}`);
    return make("div", {}, make("strong", {}, where), `: ${texts.join("; ")}`);
}

// A refusal: the cells of its row, and what is wrong with its telegram.
function refusalView(data, { label, where, reason, cells, record }) {
    return folded(make("span", { class: "found" }, label), () => {
        const shown = cells.length ? [table(`Cells of ${where}`, ["column", "text"], cells)] : [];
        if (record?.fault) return [...shown, ...refusedView(data, record)];
        return [...shown, paragraph(HINTS[reason] ?? OF_A_ROW)];
    }, "faulty");
}

class TableView extends DocumentView {
    async rows(from, count) {
        const located = await this.ask("located", { from, count, hasCells: true });
        const rows = this.findings.slice(from, from + count).map((finding, index) => {
            const show = () => this.show("group", finding.group).then(() => this.title.focus());
            const { rows: shown, more } = located[index], where = whereText({ ...finding, group: undefined });
            const rest = more ? [make("div", {}, `and ${counted(more, "more row")}`)] : [];
            const views = [...shown.map(rowView), ...rest];
            return [finding.rule, finding.name, views, where, button(`Show group ${finding.group}`, show)];
        });
        const caption = `Findings ${from + 1} to ${from + rows.length} of ${this.findings.length}`;
        return [table(caption, ["finding", "name", "rows and their cells", "where", "telegrams"], rows)];
    }

    refusal() {
        const { faults } = this.answer;
        if (!faults) return [];
        const boxes = async (from, count) => {
            const found = await this.ask("faulty", { from, count, hasCells: true });
            return found.map((it) => refusalView(this.data, it));
        };
        return [make("h3", {}, `Refused: ${counted(faults, "place")}`), stepwise(faults, REFUSALS, boxes)];
    }

    // What was read, what was not, and what is not proved.
    notes() {
        const { telegrams, status, elsewhere, unread, notes = [], isBook } = this.answer, isJudged = status < 2;
        const counts = `Telegrams in the file: ${telegrams + elsewhere.count}. Judged: ${isJudged ? telegrams : 0}, ` +
            `refused with the table: ${isJudged ? 0 : telegrams}, in other places: ${elsewhere.count}.`;
        const left = elsewhere.count > elsewhere.shown.length ? "; and others" : "";
        const others = `Not judged, although it looks like a telegram: ${elsewhere.shown.join("; ")}${left}.`;
        const noHeading = (name) => `The sheet ${shortened(name, 100)} was not read: it has no row with the headings.`;
        const proved = `The ${isBook ? "workbook" : "table"} was read, and its rows were put together to groups, by the ` +
            "JavaScript of this page, which is not proved. The proved module judges the groups.";
        const warning = elsewhere.count ? [paragraph(others, "warning")] : [];
        return [paragraph(counts), ...warning, ...[...unread.map(noHeading), ...notes, proved].map((it) => paragraph(it))];
    }

    // What the saved answer has besides that of a document.
    async more() {
        const { said, status } = this.answer, text = status < 2 ? await this.ask("made", {}) : undefined;
        const located = await this.ask("located", { from: 0, count: this.findings.length });
        const rows = located.map((it) => it.rows), own = { reader: READER, said: said.split("\n", 1)[0] };
        if (text === undefined) return { table: own };
        return { table: { ...own, document_sha256: await sumOf(new TextEncoder().encode(text)), rows } };
    }

    exports() {
        const { data, input, answer, findings } = this, base = input.name.replace(/\.(csv|tsv|txt|xlsx|xlsm)$/i, "");
        const all = (what, count) => this.ask(what, { from: 0, count });
        const csv = (name, text) => keep(`${base}.${name}.csv`, "text/csv", [text]);
        const buttons = [button("Save the answer as JSON", async () => {
            keep(`${base}.answer.json`, "application/json", [answerText(data, input, answer.found, await this.more())]);
        })];
        if (findings.length) buttons.push(button("Save the findings as CSV", async () => {
            csv("findings", rowFindingsText(findings, await all("located", findings.length)));
        }));
        if (answer.faults) buttons.push(button("Save the refusals as CSV", async () => {
            csv("refused", faultsText(await all("faulty", answer.faults)));
        }));
        if (answer.status < 2) buttons.push(button("Save the document", async () => {
            keep(`${base}.json`, "application/json", [await this.ask("made", {})]);
        }));
        return make("p", { class: "buttons" }, buttons);
    }

    said() {
        return super.said("The answer as text");
    }

    elements() {
        return [...this.notes(), ...super.elements()];
    }
}

// What is shown below the verdict.
export function tableView(data, input, answer, ask) {
    const view = new TableView(data, input, answer, ask);
    view.begin();
    return view.elements();
}

// The verdict in a line, and how it looks. A yes is not green if something that looks like a telegram was not judged.
export function tableVerdict(data, input, answer) {
    if (answer.status === 3) return ["No answer: memory ran out. Split the table, or use the program.", "no"];
    const line = shortened(answer.said.split("\n", 1)[0], 1000);
    if (answer.status !== 0) return [line, "no"];
    if (answer.elsewhere.count) return [`${line}. Other texts look like telegrams, and were not judged.`, "read"];
    return [line, "yes"];
}
