// The lines of an input in bytes, as the program reads them: a line ends with \n or \r\n, and empty lines are skipped.
const END = 10, RETURN = 13;
export const MOST_LINES = 1000000;

// The number of each line that is not empty, and where it begins and ends. There is nothing if there are too many.
export function linesOf(bytes) {
    const found = [];
    for (let at = 0, number = 1; at < bytes.length; number++) {
        const feed = bytes.indexOf(END, at), next = feed < 0 ? bytes.length : feed;
        const end = feed > at && bytes[next - 1] === RETURN ? next - 1 : next;
        if (end > at && found.push({ number, at, end }) > MOST_LINES) return undefined;
        at = next + 1;
    }
    return found;
}

// Whether a line is a radio message, which begins with 03 or 88. No telegram that is read begins so.
export function isMessage(bytes, { at, end }) {
    const start = String.fromCharCode(...bytes.subarray(at, Math.min(at + 2, end)));
    return start === "03" || start === "88";
}
