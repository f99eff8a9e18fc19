// The answer to lines of telegrams and messages: the refused ones first, then those that were read, in words.
import { make, paragraph, button, stepwise, counted } from "./view.js";
import { keep, refusedText } from "./exports.js";
import { recordView } from "./records.js";

const BOXES = 50; // at a time

// The verdict in a line, and how it looks.
export function linesVerdict(data, input, answer) {
    const { count, tooMany } = answer, refused = answer.refused?.length;
    if (tooMany) return [`Not checked: there are more than ${tooMany} lines. Split the file, or use the program.`, "no"];
    const look = refused || !count ? "no" : "read";
    return [`${counted(count, "line")}: ${count - refused} read, ${refused} refused`, look];
}

// Boxes of those that are refused, or of those that are read.
function boxes(data, ask, total, isRefused) {
    return stepwise(total, BOXES, async (from, count) => {
        const { records } = await ask("some", { from, count, isRefused });
        return records.map((record) => {
            return recordView(data, `line ${record.number}, ${record.isRadio ? "message" : "telegram"}`, record);
        });
    });
}

function exportsOf(data, input, answer, ask) {
    const base = input.name.replace(/\.txt$/i, ""), buttons = [];
    const csv = () => keep(`${base}.refused.csv`, "text/csv", [refusedText(data, answer.refused)]);
    const decoded = async () => keep(`${base}.jsonl`, "application/jsonl", [(await ask("decoded", {})).text]);
    if (answer.refused.length) buttons.push(button("Save the refusals as CSV", csv));
    if (answer.refused.length < answer.count) buttons.push(button("Save what was read as lines of JSON", decoded));
    return make("p", { class: "buttons" }, buttons);
}

// What is shown below the verdict.
export function linesView(data, input, answer, ask) {
    if (answer.tooMany || !answer.count) return [];
    const refused = answer.refused.length, read = answer.count - refused, shown = [];
    shown.push(paragraph("Each line is read by itself. No finding is looked for: F1 to F16 are about groups and " +
        "messages of a document."));
    shown.push(exportsOf(data, input, answer, ask));
    if (refused) shown.push(make("h3", {}, `Refused: ${refused}`), boxes(data, ask, refused, true));
    if (read) shown.push(make("h3", {}, `Read: ${read}`), boxes(data, ask, read, false));
    return shown;
}
