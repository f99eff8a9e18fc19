// The page: what is opened, dropped or pasted goes to a worker, and its answer is shown.
import { NOT_READ, kindOf } from "./kinds.js";
import { make, paragraph } from "./view.js";
import { sumOf } from "./exports.js";
import { documentView, documentVerdict } from "./document.js";
import { linesView, linesVerdict } from "./lists.js";
import { tableView, tableVerdict } from "./tableview.js";
import { workbookOf } from "./workbook.js";

// The smallest module with 64-bit memory.
const SMALLEST = [0, 97, 115, 109, 1, 0, 0, 0, 5, 3, 1, 4, 1];
const LARGEST = 1e9; // bytes of an input
const LONGEST_PASTE = 200000; // characters that are put into the field
const LARGEST_TABLE = 2e8; // bytes of a table or workbook
const SHOWS = { document: [documentVerdict, documentView], lines: [linesVerdict, linesView],
    table: [tableVerdict, tableView], workbook: [tableVerdict, tableView] };
const READ_AS = { document: "a document", lines: "lines of telegrams and messages", table: "a table",
    workbook: "a workbook" };
const COLUMNS = ["group", "telegram", "aspect", "balise"];
const its = Object.fromEntries([...document.querySelectorAll("[id]")].map((element) => [element.id, element]));
const data = JSON.parse(its.data.textContent);
let worker; // what runs beside the page, if it runs
let started; // when it can be asked
let current = 0; // the number of the input that is being checked
const waiting = new Map(); // what gets the answer of a request, by its number
let requests = 0;

function say(text, look) {
    its.status.replaceChildren(paragraph(text, look ? `verdict ${look}` : undefined));
}

function isWorking(flag) {
    its.stop.disabled = !flag;
    its.working.hidden = !flag;
    its.progress.removeAttribute("value");
}

function progress({ step, part }) {
    its.step.textContent = step;
    if (part === undefined) its.progress.removeAttribute("value");
    else its.progress.value = part;
}

// Says why the last input was not checked. Nothing of an earlier answer is left.
function refuse(sentence) {
    current++;
    if (waiting.size) end();
    isWorking(false);
    its.result.replaceChildren();
    say(sentence, "no");
}

function heard(said) {
    const one = waiting.get(said.id);
    if (!one) return;
    if (said.step) {
        progress(said);
        return;
    }
    waiting.delete(said.id);
    if (said.failed) one.reject(new Error(said.failed));
    else one.resolve(said.answer);
}

function begin() {
    const address = URL.createObjectURL(new Blob([its.worker.textContent], { type: "text/javascript" }));
    const own = new Worker(address);
    worker = own;
    started = new Promise((resolve, reject) => {
        own.onmessage = ({ data: said }) => {
            if (said.ready) resolve();
            else if (said.broken) reject(new Error(said.broken));
            else heard(said);
        };
        own.onerror = (event) => {
            for (const one of waiting.values()) one.reject(new Error(event.message || "the checks have ended"));
            reject(new Error(event.message || "the checks do not start"));
        };
    }).finally(() => URL.revokeObjectURL(address));
    started.catch((error) => unable(error.message));
}

// The checks do not run in this browser.
function unable(reason) {
    its.unable.hidden = false;
    if (reason) its.unable.append(` Here: ${reason}`);
    for (const control of document.querySelectorAll("button, input, textarea")) control.disabled = true;
}

// Ends the worker with all that it has. The next request begins a new one.
function end() {
    worker?.terminate();
    worker = undefined;
    waiting.clear();
}

async function ask(what, more) {
    if (!worker) begin();
    await started;
    const id = ++requests;
    return new Promise((resolve, reject) => {
        waiting.set(id, { resolve, reject });
        worker.postMessage({ id, what, ...more });
    });
}

// What the input is read as. Bytes that cannot be the chosen table are what they look like.
function chosenKind(name, bytes) {
    const chosen = document.querySelector("[name=kind]:checked").value, found = kindOf(name, bytes);
    return chosen && !(chosen === "table" && (found === "workbook" || NOT_READ[found])) ? chosen : found;
}

// The headings of a table that are looked for.
function headings() {
    const words = Object.fromEntries(COLUMNS.map((name) => [name, its[`heading-${name}`].value || name]));
    const isTwice = new Set(Object.values(words).map((it) => it.toLowerCase())).size < COLUMNS.length;
    if (isTwice) throw new Error("two columns of a table cannot have one heading");
    return words;
}

// What the worker is asked. A workbook is unpacked here, since its XML cannot be read beside the page.
async function requestOf(kind, bytes) {
    if (kind === "document" || kind === "lines") return { bytes };
    if (bytes.length > LARGEST_TABLE) throw new Error("a table can have at most 200 MB. Split it, or use the program");
    const more = { words: headings(), reasons: data.reasons };
    if (kind === "table") return { bytes, ...more };
    return { book: await workbookOf(bytes, progress), ...more };
}

// Checks the bytes of an input, and shows the answer.
async function judge(name, bytes) {
    const own = ++current, started = performance.now();
    const kind = chosenKind(name, bytes);
    if (NOT_READ[kind]) {
        refuse(NOT_READ[kind]);
        return;
    }
    if (waiting.size) end();
    its.result.replaceChildren();
    isWorking(true);
    say("Working.");
    progress({ step: "starting" });
    try {
        const request = await requestOf(kind, bytes);
        if (own !== current) return;
        const answer = { ...await ask(kind, request), isBook: kind === "workbook", notes: request.book?.notes };
        const input = { name, bytes, sum: await sumOf(bytes) };
        if (own === current) show(kind, input, answer, Math.round(performance.now() - started));
    } catch (error) {
        if (own === current) refuse(`Not checked: ${error.message}.`);
    }
}

function show(kind, input, answer, time) {
    const [verdict, view] = SHOWS[kind];
    isWorking(false);
    say(...verdict(data, input, answer));
    const about = `${input.name}: ${input.bytes.length} bytes, read as ${READ_AS[kind]}, ${time} ms`;
    const sum = input.sum ? [". SHA-256: ", make("code", {}, input.sum)] : "";
    const shown = answer.status === 3 ? [] : view(data, input, answer, ask);
    its.result.replaceChildren(make("p", {}, about, sum), ...shown);
}

async function judgeFile(file) {
    if (file.size > LARGEST) {
        refuse(`Not checked: ${file.name} has more than 1,000 MB. Use the program.`);
        return;
    }
    let bytes;
    try {
        bytes = new Uint8Array(await file.arrayBuffer());
    } catch (error) {
        refuse(`Not checked: ${file.name} cannot be read (${error.message}). A folder is no file.`);
        return;
    }
    judge(file.name, bytes);
}

function judgeText(text) {
    judge("pasted text", new TextEncoder().encode(text));
}

function dropped(event) {
    event.preventDefault();
    its.drop.classList.remove("over");
    const files = event.dataTransfer.files;
    if (files.length > 1) refuse("Not checked: drop one file at a time.");
    else if (files.length) judgeFile(files[0]);
    else judgeText(event.dataTransfer.getData("text"));
}

// A long text would make the field slow, so it is checked without being put there.
function pasted(event) {
    const text = event.clipboardData.getData("text");
    if (text.length <= LONGEST_PASTE) return;
    event.preventDefault();
    its.text.value = "";
    judgeText(text);
}

function stop() {
    current++;
    end();
    isWorking(false);
    say("Stopped. There is no answer.");
}

function clear() {
    stop();
    its.text.value = its.file.value = "";
    its.result.replaceChildren();
    say("Nothing has been checked yet.");
    its.text.focus();
}

function example() {
    its.text.value = data.example;
    judgeText(data.example);
}

function listen() {
    its.check.addEventListener("click", () => judgeText(its.text.value));
    its.stop.addEventListener("click", stop);
    its.clear.addEventListener("click", clear);
    its.example.addEventListener("click", example);
    its.file.addEventListener("change", () => its.file.files.length && judgeFile(its.file.files[0]));
    its.text.addEventListener("paste", pasted);
    document.addEventListener("dragover", (event) => {
        event.preventDefault();
        its.drop.classList.add("over");
    });
    document.addEventListener("dragleave", () => its.drop.classList.remove("over"));
    document.addEventListener("drop", dropped);
}

its.module.textContent = data.module;
if (globalThis.WebAssembly?.validate(new Uint8Array(SMALLEST))) {
    listen();
    begin();
} else {
    unable();
}
