// Elements of the page. What was read only ever becomes text, never markup.

// An element with these attributes and children, which are elements or texts.
export function make(name, attributes = {}, ...children) {
    const element = document.createElement(name);
    for (const [key, value] of Object.entries(attributes)) {
        if (typeof value === "function") element.addEventListener(key, value);
        else if (value !== undefined && value !== false) element.setAttribute(key, value === true ? "" : value);
    }
    element.append(...children.flat(Infinity));
    return element;
}

export function paragraph(text, look) {
    return make("p", { class: look }, text);
}

export function button(text, click) {
    return make("button", { type: "button", click }, text);
}

// A table that scrolls by itself. The first cell of a row is its heading.
export function table(caption, headings, rows) {
    const head = make("tr", {}, headings.map((it) => make("th", { scope: "col" }, it)));
    const body = rows.map(([first, ...rest]) => {
        return make("tr", {}, make("th", { scope: "row" }, first), rest.map((it) => make("td", {}, it)));
    });
    const whole = make("table", {}, make("caption", {}, caption), make("thead", {}, head), make("tbody", {}, body));
    return make("div", { class: "wide", tabindex: "0", role: "region", "aria-label": caption }, whole);
}

// A box that is filled when it is opened for the first time.
export function folded(summary, fill, look) {
    const box = make("details", { class: look }, make("summary", {}, summary));
    box.addEventListener("toggle", () => box.append(...[fill()].flat()), { once: true });
    return box;
}

export function shortened(text, most) {
    return text.length > most ? `${text.slice(0, most)} .. (${text.length} characters)` : text;
}

export function counted(count, word) {
    return `${count} ${word}${count === 1 ? "" : "s"}`;
}

// Items in steps: `show(from, count)` returns elements, or a promise of them. A button gets the next ones.
export function stepwise(total, step, show) {
    const box = make("div");
    let shown = 0;
    const add = (elements) => {
        more.before(...elements);
        shown += step;
        more.textContent = `Show ${Math.min(step, total - shown)} more of ${total - shown}`;
        more.hidden = false;
        if (shown < total) return;
        // (the focus would be lost with the button)
        if (document.activeElement === more) elements[0].querySelector("summary, button")?.focus();
        more.remove();
    };
    const next = () => {
        const elements = show(shown, step);
        if (elements instanceof Promise) elements.then(add);
        else add(elements);
    };
    const more = button("", next);
    if (total > 0) {
        more.hidden = true;
        box.append(more);
        next();
    }
    return box;
}
