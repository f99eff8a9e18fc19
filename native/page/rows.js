// The rows of a text of separated values (CSV), numbered as a spreadsheet numbers them. The rules are those of the proved
// crate etcs_rows: a quote inside a field without quotes, text after a closing quote, and an open quote are faults.
const QUOTE = 34, LINE_FEED = 10, CARRIAGE_RETURN = 13;
const MOST_FIELDS = 16384; // of a row, as a spreadsheet has

// Where a field without quotes ends.
function endOfPlain(text, at, delimiter) {
    let end = at;
    for (; end < text.length; end++) {
        const code = text.charCodeAt(end);
        if (code === delimiter || code === LINE_FEED || code === CARRIAGE_RETURN || code === QUOTE) break;
    }
    return end;
}

// A field with its text and its end, or what is wrong with a quote.
function plainField(text, at, delimiter) {
    const end = endOfPlain(text, at, delimiter);
    if (text.charCodeAt(end) === QUOTE) return { wrong: "a quote in a field without quotes" };
    return { text: text.slice(at, end), end };
}

// The same for a field that begins with a quote. Two quotes in it are one.
function quotedField(text, at, delimiter) {
    let close = text.indexOf('"', at + 1), hasQuotes = false;
    while (close >= 0 && text.charCodeAt(close + 1) === QUOTE) {
        hasQuotes = true;
        close = text.indexOf('"', close + 2);
    }
    if (close < 0) return { wrong: "a quote that is not closed" };
    const end = close + 1, inside = text.slice(at + 1, close);
    const isEnd = end === text.length || [delimiter, LINE_FEED, CARRIAGE_RETURN].includes(text.charCodeAt(end));
    if (!isEnd) return { wrong: "text after the quote that ends a field" };
    return { text: hasQuotes ? inside.replaceAll('""', '"') : inside, end };
}

// Where the next row begins, if a row ends here: after a carriage return, a line feed, or both.
function afterEnd(text, at) {
    return text.charCodeAt(at) === CARRIAGE_RETURN && text.charCodeAt(at + 1) === LINE_FEED ? at + 2 : at + 1;
}

// The fields of the row that begins here, and where the next row begins, or what is wrong with a quote.
export function rowAt(text, start, delimiter) {
    const fields = [];
    for (let at = start; ; at++) {
        const isQuoted = text.charCodeAt(at) === QUOTE;
        const field = (isQuoted ? quotedField : plainField)(text, at, delimiter);
        if (field.wrong) return field;
        if (fields.push(field.text) > MOST_FIELDS) throw new Error(`a row has more than ${MOST_FIELDS} fields`);
        at = field.end;
        if (at === text.length || text.charCodeAt(at) !== delimiter) return { fields, next: afterEnd(text, at) };
    }
}

// The rows that have fields, each with its number and where it begins. The last one has `wrong` if a quote is.
export function* rowsOf(text, delimiter) {
    for (let at = 0, number = 1; at < text.length; number++) {
        const code = text.charCodeAt(at);
        if (code === LINE_FEED || code === CARRIAGE_RETURN) {
            at = afterEnd(text, at);
            continue;
        }
        const { fields, next, wrong } = rowAt(text, at, delimiter);
        yield { number, at, fields, wrong };
        if (wrong) return;
        at = next;
    }
}
