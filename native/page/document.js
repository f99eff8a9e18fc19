// The answer to a document: findings with what they mean, and the telegrams of each group in words.
import { make, paragraph, button, table, folded, stepwise, shortened } from "./view.js";
import { keep, answerText, findingsText } from "./exports.js";
import { recordView } from "./records.js";

const ROWS = 100; // findings at a time
const TELEGRAMS = 50; // at a time
const LONGEST_ANSWER = 200000; // characters of the program's answer that are shown
const LONGEST_NAME = 100; // characters of the name of a group
const PARTS = ["What it says", "Why it matters", "Usual cause", "How to correct it"];

// Where a finding or a refusal is.
export function whereText(found) {
    const keys = ["group", "message", "aspect", "balise", "packet"].filter((key) => found[key] !== undefined);
    return [...keys.map((key) => `${key} ${found[key]}`), ...(found.direction ? [found.direction] : [])].join(", ");
}

// Why a document was refused as a whole, in a sentence.
function refusedSentence(data, found) {
    const meaning = data.forms[found.reason] ?? "";
    const path = found.path?.map((it) => `/${it}`).join("") || "the document itself";
    const where = found.path ? ` at ${shortened(path, 300)}` : "";
    return `${found.reason}${where}${meaning ? `: ${meaning}` : ""}.`;
}

export class DocumentView {
    constructor(data, input, answer, ask) {
        Object.assign(this, { data, input, answer, ask });
        this.found = JSON.parse(answer.found ?? "{}");
        this.findings = this.found.findings ?? [];
        this.isRefused = answer.status === 2;
        this.place = make("div");
        this.title = make("h3", { tabindex: "-1", "aria-live": "polite" }, "Telegrams and messages in words");
        this.numbers = { group: this.number("group"), message: this.number("message") };
    }

    number(kind) {
        const max = this.answer[`${kind}s`] - 1, change = () => this.show(kind);
        return make("input", { type: "number", min: 0, max, value: 0, id: `${kind}-number`, change });
    }

    // The rows of some findings, each with a button that shows its telegrams.
    rows(from, count) {
        const rows = this.findings.slice(from, from + count).map((finding) => {
            const kind = finding.group === undefined ? "message" : "group";
            const show = () => this.show(kind, finding[kind]).then(() => this.title.focus());
            return [finding.rule, finding.name, whereText(finding), button(`Show ${kind} ${finding[kind]}`, show)];
        });
        const caption = `Findings ${from + 1} to ${from + rows.length} of ${this.findings.length}`;
        return [table(caption, ["finding", "name", "where", "telegrams"], rows)];
    }

    explanations() {
        const rules = [...new Set(this.findings.map((finding) => finding.rule))];
        return rules.map((rule) => folded(`${rule} ${this.data.findings[rule][0]}: what it means`, () => {
            return this.data.findings[rule].slice(1).map((text, index) => paragraph(`${PARTS[index]}. ${text}`));
        }));
    }

    // The group or message with this number, or with the one that is in its field.
    async show(kind, index) {
        const field = this.numbers[kind];
        if (index !== undefined) field.value = index;
        const number = Number(field.value), most = this.answer[`${kind}s`];
        if (!(Number.isInteger(number) && number >= 0 && number < most)) {
            const sentence = `There is no ${kind} ${field.value}: they are numbered from 0 to ${most - 1}.`;
            this.place.replaceChildren(paragraph(sentence));
            return;
        }
        const views = kind === "group" ? await this.group(number) : await this.message(number);
        this.place.replaceChildren(...views);
        this.title.textContent = `Telegrams and messages in words: ${kind} ${number}`;
    }

    // Which findings a telegram has, and which packets they mark.
    foundOf(where) {
        const isHere = (it) => Object.entries(where).every(([key, value]) => it[key] === undefined || it[key] === value);
        const own = this.findings.filter((it) => isHere(it) && (it.balise !== undefined || it.message !== undefined));
        return [own.map((it) => `${it.rule} ${it.name}`), own.map((it) => it.packet).filter((it) => it !== undefined)];
    }

    async group(group) {
        const { aspects } = await this.ask("group", { index: group });
        const of = this.findings.filter((it) => it.group === group && it.balise === undefined);
        const whole = of.map((it) => paragraph(`${it.rule} ${whereText(it)}: ${it.name}`, "found"));
        const all = aspects.flatMap((records, aspect) => {
            return records.map((record, balise) => ({ record, group, aspect, balise }));
        });
        const view = ({ record, ...where }) => {
            const place = whereText(aspects.length > 1 ? where : { ...where, aspect: undefined });
            const label = record.where ? `${record.where}, ${shortened(record.name, LONGEST_NAME)}, ${place}` : place;
            return recordView(this.data, label, record, ...this.foundOf({ ...where, message: undefined }));
        };
        return [...whole, stepwise(all.length, TELEGRAMS, (from, count) => all.slice(from, from + count).map(view))];
    }

    async message(message) {
        const { record } = await this.ask("message", { index: message });
        return [recordView(this.data, `message ${message}`, record, ...this.foundOf({ message, group: undefined }))];
    }

    chooser(kind) {
        const most = this.answer[`${kind}s`], field = this.numbers[kind];
        if (!most) return [];
        const step = (by) => () => this.show(kind, Math.min(Math.max(Number(field.value) + by, 0), most - 1));
        const title = `${kind[0].toUpperCase()}${kind.slice(1)} (0 to ${most - 1})`;
        return [make("p", { class: "buttons" }, make("label", { for: field.id }, title), field,
            button("Show", step(0)), button(`Previous ${kind}`, step(-1)), button(`Next ${kind}`, step(1)))];
    }

    exports() {
        const { data, input, answer, findings } = this, base = input.name.replace(/\.json$/i, "");
        const json = () => keep(`${base}.findings.json`, "application/json", [answerText(data, input, answer.found)]);
        const csv = () => keep(`${base}.findings.csv`, "text/csv", [findingsText(findings)]);
        const whole = () => keep(`${base}.json`, "application/json", [input.bytes]);
        const buttons = [button("Save the answer as JSON", json), button("Save the document", whole)];
        if (findings.length) buttons.splice(1, 0, button("Save the findings as CSV", csv));
        return make("p", { class: "buttons" }, buttons);
    }

    // Why the document was refused, unless a telegram or message was: that one has its own reason.
    refusal() {
        const isTold = this.data.forms[this.found.reason] !== undefined || this.found.path !== undefined;
        return this.isRefused && isTold ? [paragraph(refusedSentence(this.data, this.found))] : [];
    }

    // The program's own text.
    said(title = "The answer as the program writes it") {
        return folded(title, () => {
            const attributes = { tabindex: "0", role: "region", "aria-label": "the program's answer" };
            return make("pre", attributes, shortened(this.answer.said, LONGEST_ANSWER));
        });
    }

    elements() {
        const count = this.findings.length, shown = this.refusal();
        if (count) shown.push(stepwise(count, ROWS, (from, step) => this.rows(from, step)));
        shown.push(...this.explanations(), this.said(), this.exports());
        if (this.answer.groups + this.answer.messages === 0) return shown;
        return [...shown, this.title, ...this.chooser("group"), ...this.chooser("message"), this.place];
    }

    // Shows what was refused, or what the first finding is about, else the first group or message. Focus stays.
    begin() {
        const isThere = (it) => this.answer.groups > it.group || this.answer.messages > it.message;
        const first = [this.found, ...this.findings, { group: 0 }, { message: 0 }].find(isThere);
        const kind = first?.group === undefined ? "message" : "group";
        if (first) this.show(kind, first[kind]).then(() => this.isRefused && this.open());
    }

    // Opens the telegram that was refused.
    open() {
        const box = this.place.querySelector("details.faulty");
        if (box) box.open = true;
    }
}

// What is shown below the verdict.
export function documentView(data, input, answer, ask) {
    const view = new DocumentView(data, input, answer, ask);
    view.begin();
    return view.elements();
}

// The verdict in a line, and how it looks.
export function documentVerdict(data, input, answer) {
    const line = answer.said.slice(0, 2000).split("\n", 1)[0];
    if (answer.status === 3) return ["No answer: memory ran out. Split the document, or use the program.", "no"];
    const isEmpty = answer.status === 0 && answer.groups + answer.messages === 0;
    if (isEmpty) return [`${line}. The document is empty, so nothing was checked.`, "read"];
    return [shortened(line, 1000), answer.status === 0 ? "yes" : "no"];
}
