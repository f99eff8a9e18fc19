"""What is run in a page to check its form: labels, roles, headings, tables, ids and contrast."""

# A list of sentences on what is wrong: none if nothing is.
FORM = r"""(() => {
const wrong = [];
const seen = (it) => it.checkVisibility({ checkVisibilityCSS: true }) && it.getBoundingClientRect().width > 0;
const all = (selector) => [...document.querySelectorAll(selector)].filter(seen);
const say = (it, what) => wrong.push(`${what}: ${it.outerHTML.slice(0, 100)}`);
const named = (it) => {
    const ids = (it.getAttribute("aria-labelledby") ?? "").split(" ").filter(Boolean);
    const own = /^(BUTTON|A|SUMMARY)$/.test(it.tagName) ? [it] : [];
    const labels = [...ids.map((id) => document.getElementById(id)), ...(it.labels ?? []), ...own];
    return [it.getAttribute("aria-label"), ...labels.map((one) => one?.textContent)].some((text) => text?.trim());
};
for (const it of all("button, a, summary, input, textarea, select, progress, [role=region], section, [tabindex='0']")) {
    if (!named(it)) say(it, "it has no name");
}
for (const it of all("fieldset")) if (!it.querySelector("legend")?.textContent.trim()) say(it, "it has no legend");
for (const it of all("table")) {
    if (!it.caption?.textContent.trim()) say(it, "it has no caption");
    if (!it.querySelector("thead th[scope=col]")) say(it, "its columns have no headings");
    const rows = [...it.tBodies[0]?.rows ?? []];
    for (const row of rows) if (!row.querySelector("th[scope=row]")) say(row, "the row has no heading");
}
const ids = [...document.querySelectorAll("[id]")].map((it) => it.id);
for (const id of ids) if (ids.indexOf(id) !== ids.lastIndexOf(id)) wrong.push(`id twice: ${id}`);
for (const name of ["for", "aria-labelledby", "aria-describedby"]) {
    for (const it of document.querySelectorAll(`[${name}]`)) {
        for (const id of it.getAttribute(name).split(" ")) if (!ids.includes(id)) say(it, `there is no ${id}`);
    }
}
const levels = all("h1, h2, h3, h4, h5, h6").map((it) => Number(it.tagName[1]));
if (levels[0] !== 1 || levels.filter((it) => it === 1).length !== 1) wrong.push("not one h1, which comes first");
levels.forEach((level, index) => {
    if (index && level > levels[index - 1] + 1) wrong.push(`h${level} after h${levels[index - 1]}`);
});
if (document.documentElement.lang !== "en" || !document.title) wrong.push("no language, or no title");
for (const name of ["main", "header"]) if (document.querySelectorAll(name).length !== 1) wrong.push(`not one ${name}`);
if (!document.querySelector("[role=status]")) wrong.push("nothing is announced");
for (const it of document.querySelectorAll("[tabindex]")) if (it.tabIndex > 0) say(it, "it has an order of its own");

// Contrast by WCAG 2: 4.5, or 3 for large text. Colours that can be seen through are laid over what is behind them.
const parts = (text) => [...text.match(/[\d.]+/g).map(Number), 1].slice(0, 4);
const over = (top, below) => [0, 1, 2].map((it) => top[it] * top[3] + below[it] * (1 - top[3])).concat(1);
const behind = (it) => {
    const layers = [];
    for (; it; it = it.parentElement) layers.unshift(parts(getComputedStyle(it).backgroundColor));
    const dark = matchMedia("(prefers-color-scheme: dark)").matches;
    return layers.reduce((below, top) => over(top, below), dark ? [18, 18, 18, 1] : [255, 255, 255, 1]);
};
const light = (colour) => [0.2126, 0.7152, 0.0722].reduce((sum, part, it) => {
    const value = colour[it] / 255;
    return sum + part * (value <= 0.04045 ? value / 12.92 : ((value + 0.055) / 1.055) ** 2.4);
}, 0);
const walker = document.createTreeWalker(document.body, NodeFilter.SHOW_TEXT);
while (walker.nextNode()) {
    const it = walker.currentNode.parentElement;
    if (!walker.currentNode.data.trim() || !seen(it) || it.closest(":disabled, script, style, noscript")) continue;
    const look = getComputedStyle(it), back = behind(it), front = over(parts(look.color), back);
    const [less, more] = [light(back), light(front)].sort((a, b) => a - b), size = parseFloat(look.fontSize);
    const least = size >= 24 || (size >= 18.66 && Number(look.fontWeight) >= 700) ? 3 : 4.5;
    if ((more + 0.05) / (less + 0.05) < least) say(it, `contrast ${((more + 0.05) / (less + 0.05)).toFixed(2)}`);
}
return wrong;
})()"""

# Where the element is that has the focus, whether that is seen, and what it is.
FOCUSED = r"""(() => {
const it = document.activeElement, box = it.getBoundingClientRect(), look = getComputedStyle(it);
const isSeen = look.outlineStyle !== "none" && parseFloat(look.outlineWidth) >= 2;
return [box.top + scrollY, box.left, isSeen, it.outerHTML.slice(0, 80)];
})()"""

# How many controls Tab reaches: of radio buttons with one name only one.
ORDER = r"""(() => {
const all = [...document.querySelectorAll("a[href], button, summary, input, textarea, [tabindex='0']")]
    .filter((it) => !it.disabled && it.checkVisibility({ checkVisibilityCSS: true }))
    .filter((it) => it.type !== "radio" || it.checked);
return all.length;
})()"""
