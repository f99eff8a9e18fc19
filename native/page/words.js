// Telegrams and messages in words and units, by the layouts of the repository's table of variables.

// The layout of a packet in a telegram or message.
export function packetLayout(layouts, number, isTrain) {
    const kind = isTrain ? "train packet" : "packet";
    return layouts[`${kind} ${number}`] ?? layouts[`${kind} other`];
}

function metres(decimetres) {
    return `${decimetres / 10} m`;
}

// A number with its unit. A distance has that of its packet's Q_SCALE.
function withUnit(value, unit, scale) {
    if (unit === "Q_SCALE") return scale === undefined ? "" : metres(value * scale);
    const [, factor, name] = /^(?:(\d+) )?(.*)$/.exec(unit);
    const product = value * Number(factor ?? 1);
    return name === "ms" ? `${product / 1000} s` : `${product} ${name}`;
}

// A number in words: the meaning that its span has, or its unit; nothing if it has neither.
export function inWords(row, value, scale) {
    const span = row.spans.find(([first, last]) => first <= value && value <= last);
    if (span?.[2]) return span[2];
    return row.unit ? withUnit(value, row.unit, scale) : "";
}

// The rows of the header that share the identity of a group.
function identityRow(data, row, key) {
    const own = data.layouts.header.nodes.find((it) => it.keys?.includes(key.replace(/^prv_/, "")));
    return { ...own, variable: `${own.variable} of ${row.variable}`, meaning: row.meaning };
}

// Whether a row is there, by another variable of its object. A variable without a key is there if the row's own key is.
function isThere(row, object) {
    const [name, numbers] = row.when;
    const value = name ? object[name.toLowerCase()] : undefined;
    return value === undefined || numbers.includes(value);
}

// The lines of an object: what each variable is called, its number, the number in words, and what it is about.
function objectLines(data, nodes, object, scale, depth) {
    return nodes.flatMap((node) => {
        if (node.nodes) return partLines(data, node, object[node.key], scale, depth);
        return node.keys.filter((key) => object[key] !== undefined && isThere(node, object)).map((key) => {
            const row = node.keys.length > 1 ? identityRow(data, node, key) : node;
            const value = object[key], words = typeof value === "number" ? inWords(row, value, scale) : "";
            return { depth, name: row.variable, value: String(value), words, about: row.meaning };
        });
    });
}

function partLines(data, part, value, scale, depth) {
    if (value === undefined) return [];
    const label = part.key.replaceAll("_", " ");
    const items = Array.isArray(value) ? value : [value];
    return items.flatMap((item, index) => [
        { depth, heading: Array.isArray(value) ? `${label} ${index}` : label },
        ...objectLines(data, part.nodes, item, scale, depth + 1),
    ]);
}

// A telegram or message in parts: its head, and each packet.
export function partsOf(data, form) {
    const isMessage = form.nid_message !== undefined, isTrain = form.nid_message === 136;
    const head = data.layouts[isMessage ? `message ${form.nid_message}` : "header"];
    const first = { title: head.title, lines: objectLines(data, head.nodes, form, undefined, 0) };
    return [first, ...form.packets.map((packet, index) => {
        const layout = packetLayout(data.layouts, packet.nid_packet, isTrain), scale = data.scales[packet.q_scale];
        const title = `packet ${packet.nid_packet} (index ${index}): ${layout.title}`;
        return { title, lines: objectLines(data, layout.nodes, packet, scale, 0) };
    })];
}

// A telegram or message in a few words.
export function summaryOf(form) {
    const packets = form.packets.map((packet) => packet.nid_packet).join(", ");
    const carried = packets ? `packets ${packets}` : "no packets";
    if (form.nid_message === 136) return `train position report of NID_ENGINE ${form.nid_engine}, ${carried}`;
    const group = `NID_C ${form.nid_c}, NID_BG ${form.nid_bg}`;
    if (form.nid_message === 3) return `movement authority from group ${group}, ${carried}`;
    return `${group}, N_PIG ${form.n_pig}, N_TOTAL ${form.n_total}, ${carried}`;
}
