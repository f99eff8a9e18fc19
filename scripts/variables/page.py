"""Parts of docs/variables.md that are made of other files, each between `<!-- KIND WHAT -->` and `<!-- /KIND -->`:

- `layout LAYOUT`: its name, sections and purpose, and its variables
- `raw layouts`, `raw variables`: packets that the program keeps as bits, by balisekit
"""
import json
import re
import sys

from variables.table import COUNTED, TOP, Row, rows_of

sys.path.insert(1, str(TOP / "companion/src"))
from balisekit.etcs.packets import packet_name  # noqa: E402  (the path comes first)

PAGE = TOP / "docs/variables.md"
RAW = json.loads((TOP / "companion/src/balisekit/etcs/raw_layouts.json").read_text(encoding="utf-8"))
PART = re.compile(r"(?s)(<!-- (\w+) ([\w ]+) -->\n).*?(?=<!-- /\2 -->\n)")


def table(columns, rows):
    """A table of the page."""
    return "".join("| " + " | ".join(it) + " |\n" for it in (columns, ["---"] * len(columns), *rows)) + "\n"


def shown(first, last):
    """Numbers with commas from five digits on, as in the pages."""
    return " to ".join(dict.fromkeys(f"{it:,}" if it > 9999 else str(it) for it in (first, last)))


def condition(row):
    """The condition of a row in words."""
    return "if {} is {}".format(*row.when.split(" ", 1)) if row.when else ""


def numbers_text(row):
    """The numbers that are read, with their meanings, and those that are not."""
    unit = {"": "", "Q_SCALE": " units"}.get(row.unit, f" × {row.unit}" if row.unit[:1].isdigit() else f" {row.unit}")
    read = [shown(first, last) + (f" = {words}" if words else unit) for first, last, words in row.spans]
    others = ", ".join(shown(*it) for it in row.refused)
    if row.fault in ("spare", "the end mark"):
        others = f"{others} {'is' if others.isdigit() else 'are'} {row.fault}"
    elif row.fault:
        others = f"{others if others.isdigit() else 'any other'} is refused as `{row.fault}`"
    return "; ".join(filter(None, ["the count" if row.numbers == COUNTED else "", *read, others]))


def with_doubt(text, doubt):
    """A text with its doubt."""
    return f"{text}{'.' * (text[-1:] != '.')} *Doubt: {doubt}.*" if doubt else text


def lines_of(rows):
    """A line for each variable of a layout, with its first bit unless that varies."""
    lines, at = [], 0
    for place, row in enumerate(rows):
        key, is_count = f"`{row.key}`: " if row.keys else "", row.key.endswith("[]")
        meaning = with_doubt(key + (f"only {condition(row)}: " if row.when else "") + row.meaning, row.doubt)
        lines.append([row.variable, "next" if at is None else str(at), row.bits, meaning, numbers_text(row)])
        at = None if at is None or row.when or is_count else at + row.width
        first = [it.variable for it in rows[:place] if is_count and it.key.startswith(f"{row.key}/")]
        if first:
            lines.append([f"{first[0]} to {first[-1]}", "next", "", "each further one, as the first", ""])
    return lines


def layout_part(rows, name):
    """The heading of a layout with a number, its sections, purpose and doubt, and its variables."""
    row = next(it for it in rows if it.layouts == name and not it.variable)
    kind, _, number = name.rpartition(" ")
    origin = " from train to track" * (kind == "train packet")
    heading = f"### {kind.removeprefix('train ').capitalize()} {number}{origin}, {row.meaning}\n\n" * number.isdigit()
    text = with_doubt(" ".join(filter(None, [f"SUBSET-026, {row.section}.", row.about])), row.doubt)
    lines = table(["Variable", "First bit", "Bits", "Meaning", "Values"], lines_of(rows_of(rows)[name]))
    return f"{heading}{text}\n\n{lines if rows_of(rows)[name] else ''}"


def raw_rows():
    """The variables of packets that the program keeps as bits, as rows."""
    for it in RAW["variables"]:
        own = {key: it.get(key, "") for key in ("numbers", "unit", "meaning", "doubt")}
        row = Row(layouts="raw", variable=it["name"], bits=str(it["bits"]), **own)
        yield row._replace(fault="spare" if row.refused else "")


def compared_raw(notes):
    """The rows of raw-layouts.csv, for each layout and each variable, with those of these notes that still hold."""
    rows = [Row(layouts=f"{'train ' * (it['from'] == 'train')}packet {it['packet']}", about=json.dumps(it["fields"]),
                meaning=packet_name(it["packet"], it["from"] == "track"), section="7.4",
                doubt=": ".join(filter(None, [f"{it['sure']} % sure", it.get("doubt")]))) for it in RAW["layouts"]]
    rows += [it._replace(section="7.5.1") for it in raw_rows()]
    kept = {(it.layouts, it.variable): it[-3:] for it in notes}
    return [it._replace(**dict(zip(it._fields[-3:], kept.get((it.layouts, it.variable), it[-3:])))).sealed()
            for it in rows]


def raw_part(_, what):
    """The layouts, or the variables, of packets that the program keeps as bits."""
    if what == "variables":
        rows = [[it.variable, it.bits, with_doubt(it.meaning, it.doubt), numbers_text(it)] for it in raw_rows()]
        return table(["Variable", "Bits", "Meaning", "Values"], rows)
    rows = [[f"{it['packet']} from {it['from']}", packet_name(it["packet"], it["from"] == "track"),
             f"`{json.dumps(it['fields'])}`", with_doubt(f"{it['sure']} %", it.get("doubt"))] for it in RAW["layouts"]]
    return table(["Packet", "Name", "Fields", "Certainty"], rows)


def variables_page(rows):
    """The page of variables with its parts as they are made now."""
    text = PAGE.read_text(encoding="utf-8")
    on_page = {what for _, kind, what in PART.findall(text) if kind == "layout"}
    assert on_page == {*rows_of(rows)}, "the page and the table have other layouts"
    parts = {"layout": layout_part, "raw": raw_part}
    return PART.sub(lambda it: f"{it[1]}\n{parts[it[2]](rows, it[3])}", text)
