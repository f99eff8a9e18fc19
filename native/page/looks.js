// What looks like a telegram, wherever it is.
export const FEWEST_DIGITS = 40; // of a text that looks like a telegram
const PUNCTUATION = /[\s:.,;_-]+/g, LOOKS = new RegExp(`[0-9a-fA-F]{${FEWEST_DIGITS}}`);

// Whether a text contains digits as a telegram has, be there other text beside them or signs between them.
export function looksLikeTelegram(text) {
    return text.length >= FEWEST_DIGITS && LOOKS.test(text.replace(PUNCTUATION, ""));
}
