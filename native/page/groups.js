// The groups of balises that the telegrams of a table stand for, and the rows of a finding. The rules and words are those
// of the proved crates etcs_table and etcs_table_check. This file is not proved.
const MOST_BALISES = 8;

function isEvery(entry) {
    return entry.aspect === "*";
}

// Entries by a key, in the order in which the keys appear first.
function listsBy(entries, key) {
    const lists = new Map();
    for (const entry of entries) {
        const list = lists.get(key(entry));
        if (list) list.push(entry);
        else lists.set(key(entry), [entry]);
    }
    return lists;
}

// The rows of each aspect, with those of every aspect: of those that rows name, or of one without a name.
function aspectsOfRows(entries) {
    const every = entries.filter(isEvery), own = entries.filter((it) => !isEvery(it));
    if (!own.length) return [every];
    const lists = [...listsBy(own, (it) => it.aspect).values()];
    return every.length ? lists.map((it) => [...it, ...every].sort((one, other) => one.index - other.index)) : lists;
}

// The balises of an aspect by their numbers, if they have numbers, else by their rows.
function inOrder(entries) {
    return entries.toSorted((one, other) => (one.number ?? 0) - (other.number ?? 0));
}

function entryFault(entries) {
    const hasAspects = entries.some((it) => it.aspect !== "" && !isEvery(it));
    const hasNumbers = entries.some((it) => it.number !== undefined);
    const isUnnamed = (it) => hasAspects && it.aspect === "", isUnnumbered = (it) => hasNumbers && it.number === undefined;
    const found = entries.find((it) => isUnnamed(it) || isUnnumbered(it));
    return found && { ...found, reason: isUnnamed(found) ? "no aspect" : "no balise" };
}

function aspectFault(entries) {
    const seen = new Set();
    for (const it of entries) {
        if (it.number !== undefined && seen.has(it.number)) return { ...it, reason: "balise twice" };
        seen.add(it.number);
    }
    return entries[MOST_BALISES] && { ...entries[MOST_BALISES], reason: "ninth balise" };
}

function unevenFault(aspects) {
    for (const entries of aspects) {
        const own = entries.length === aspects[0].length ? undefined : entries.find((it) => !isEvery(it));
        if (own) return { ...own, reason: "another count of balises than in the first aspect" };
    }
    return undefined;
}

function movedFault(entries, aspects) {
    const isMoved = (it) => aspects.some((balises) => balises.indexOf(it) !== aspects[0].indexOf(it));
    const found = entries.find((it) => isEvery(it) && isMoved(it));
    return found && { ...found, reason: "not at one place in all aspects" };
}

// The first fault of a group.
function groupFault(entries, rows, aspects) {
    return entryFault(entries) ?? rows.map(aspectFault).find(Boolean) ?? unevenFault(rows) ?? movedFault(entries, aspects);
}

// The groups in the order of their first rows, each with its balises by aspect, and the fault of each that has one.
export function groupsOf(entries) {
    const groups = [], faults = [];
    for (const [name, own] of listsBy(entries, (it) => it.group)) {
        const rows = aspectsOfRows(own), aspects = rows.map(inOrder), fault = groupFault(own, rows, aspects);
        if (fault) faults.push(fault);
        groups.push({ name, aspects });
    }
    return { groups, faults };
}

// The document that groups stand for.
export function documentOf(groups) {
    const form = groups.map(({ aspects }) => {
        return { aspects: aspects.map((balises) => ({ balises: balises.map((it) => it.digits) })) };
    });
    return { groups: form, messages: [] };
}

function earliest(entries) {
    return entries.length ? [entries.reduce((one, other) => (other.index < one.index ? other : one))] : [];
}

// The rows of a finding: those of its balise, in its aspect if it names one, else the first row of its aspect or group.
export function rowsOfFinding(groups, { group, aspect, balise }) {
    const all = groups[group]?.aspects ?? [], aspects = aspect === undefined ? all : [all[aspect] ?? []];
    if (balise === undefined) return earliest(aspects.flat());
    return [...new Set(aspects.map((balises) => balises[balise]).filter(Boolean))];
}
