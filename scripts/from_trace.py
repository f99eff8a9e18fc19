#!/usr/bin/env -S python3 -B
"""Makes docs/variables.md, two schemas and the counts of compared rows from docs/assurance/trace.csv, and the columns
of this table that state what is in docs/findings.md and in the definitions of crates/*/specs: comments above them, and
names of numbers. Makes docs/assurance/raw-layouts.csv of balisekit's raw layouts. tests/test_trace.py compares all."""
import csv
import io
import json
import re

from variables import schemas
from variables.page import PAGE, compared_raw, shown, variables_page
from variables.table import COLUMNS, RAW_TABLE, TABLE, TOP, layouts_of, read_rows

COUNTING = (PAGE, TOP / "docs/assurance/safety.md")
COUNT, RAW_COUNT = re.compile(r"\d+ of \d+ rows"), re.compile(r"\d+ of \d+ raw rows")
RULE = re.compile(r"(?ms)^## (F\d+): (.*?)$.*?\(SUBSET-026, ([^)]*)\)")
FINDINGS = RULE.findall((TOP / "docs/findings.md").read_text(encoding="utf-8"))
COMMENTED = re.compile(r"(?m)((?:^-- .*\n)+)^(?:abbrev |unfoldable )?pub (?:record )?(\S+)")
NAME = r"[A-Z]\w*_\w+"
# Functions that give numbers to constructors, or parts that follow a number, by the names of their variables.
NUMBERING = {"M_VERSION": "version_number", "M_DUP": "dup_number", "Q_SCALE": "scale_number", "Q_DIR": "dir_number",
             "Q_DIRLRBG": "train3_number", "Q_DLRBG": "train3_number", "Q_DIRTRAIN": "train3_number",
             "M_LEVELTR": "level_parts", "M_LEVEL": "level_parts"}
# The words of constructors that are not their names in small letters.
WORDS = {"V2_0": "2.0", "V2_1": "2.1", "Single": "no duplicate", "TenCentimetres": "10 cm", "Metre": "1 m",
         "TenMetres": "10 m", "Ntc": "level NTC", **{f"L{it}": f"level {it}" for it in range(4)}}
# The words for units in comments.
UNITS = {"5 km/h": "in steps of 5 km/h", "s": "in seconds", "‰": "in metres of height per 1,000 metres",
         "m": "in metres", "10 ms": "in units of 10 ms", "Q_SCALE": "in the unit of the packet"}
SPECS = {str(it.relative_to(TOP)): it.read_text("utf-8") for it in sorted(TOP.glob("crates/etcs_*/specs/**/*.antt"))}
# The comment above each definition in one line, by `FILE: NAME`.
COMMENTS = {f"{place}: {name}": re.sub(r"\s*\n?-- ", " ", comment).strip()
            for place, text in SPECS.items() for comment, name in COMMENTED.findall(text)}


# ---- what definitions state


def about(variable):
    """What comments state about a variable, from its width on, such as '2 bits: 0 is reverse, 1 is nominal'."""
    found = re.findall(rf"(?m)^(?:{NAME}(?:, | and ))*{variable}(?:(?:, | and ){NAME})*, (\d+ bits?\b.*)",
                       "\n".join(COMMENTS.values()))
    return found + [it for text in found for other in re.findall(rf", as ({NAME})$", text) for it in about(other)]


def numbers_in(text):
    """The numbers that a comment names: those that are read as spans with their words, and those that are not."""
    read, refused = [], []
    for clause in re.split(r"[;,:.] (?=\d)|; ", text.partition(": ")[2].replace(". At ", "; ").removeprefix("only ")):
        found = re.match(r"(?!\d+ bits\b)(\d[\d,]*\d|\d)(?: (to|and|or) (\d[\d,]*\d|\d)\b)?,?(.*)", clause)
        if found:
            first, last = (int(it.replace(",", "")) for it in (found[1], found[3] or found[1]))
            words = re.sub(r"^ (?:is |are |means )?|, is read$|\.$", "", found[4]) if first == last else ""
            ends = [(first, last)] if found[2] == "to" or first == last else [(first, first), (last, last)]
            kind = refused if re.search(r"\b(is|are) spare\b|is not read", found[4]) else read
            kind.extend((*it, words) if kind is read else it for it in ends)
    return read, refused


def unit_in(text):
    """The unit that a comment names."""
    return next((unit for unit, words in UNITS.items() if words in text), "")


def names(variable):
    """The words that the constructors of a variable's type have, by their numbers."""
    function = NUMBERING.get(variable)
    lines = re.findall(rf"(?m)^{function} \(?\w+\.(\w+).* = (.*)$", "\n".join(SPECS.values())) if function else []
    return {int(number) if number.isdigit() else number.count("inr"):
            word_of(name) for name, number in lines}


def word_of(name):
    """The words of a constructor."""
    return WORDS.get(name, re.sub("(?<=[a-z])(?=[A-Z])", " ", name).lower())


# ---- what is made


def unstated(row, rows):
    """The numbers whose meaning, and the unit, that no definition states. A qualifier means what it decides."""
    if not row.variable or row.bits == "1" and any(it.condition[0] == row.variable for it in rows):
        return ""
    texts = about(row.variable) if row.variable != "NID_PACKET" else []
    stated = {*names(row.variable), *(first for it in texts for first, _, words in numbers_in(it)[0] if words)}
    lacking = [shown(first, last) for first, last, words in row.spans if words and first not in stated]
    return ", ".join([*lacking, *[row.unit] * (row.unit not in ("", "Q_SCALE", *map(unit_in, texts)))])


def made_row(row, rows):
    """The row with what definitions and docs/findings.md state: rules and words consist of it."""
    if row.kind in ("rule", "word"):
        found = [re.sub(r"^F\d+(?: and F\d+)?: ", "", COMMENTS[it]) for it in row.about.split("; ")]
        name, section = {rule: its for rule, *its in FINDINGS}.get(row.layouts.removeprefix("rule "), ("", row.section))
        row = row._replace(meaning=(f"{name}: " if name else "") + "; or ".join(found), section=section)
    return row._replace(unstated=unstated(row, rows)).sealed()


def made():
    """The text of each file that has something made of the table, and of the table itself."""
    rows = read_rows()
    rows = [made_row(it, rows) for it in rows]
    count = f"{sum(bool(it.compared) for it in rows)} of {len(rows)} rows"
    texts = {path: path.read_text(encoding="utf-8") for path in COUNTING} | {PAGE: variables_page(rows)}
    texts = {path: COUNT.sub(count, text) for path, text in texts.items()}
    meanings = {it.layouts: it.meaning for it in rows if not it.variable}
    for name, schema in (("telegram", schemas.telegram), ("message", schemas.message)):
        form = json.dumps(schema(layouts_of(rows), meanings), indent=2, ensure_ascii=False)
        texts[TOP / f"schemas/{name}.json"] = f"{form}\n"
    raw = compared_raw(read_rows(RAW_TABLE))
    texts[PAGE] = RAW_COUNT.sub(f"{sum(bool(it.compared) for it in raw)} of {len(raw)} raw rows", texts[PAGE])
    return {TABLE: table_text(rows), RAW_TABLE: table_text(raw), **texts}


def table_text(rows):
    """The text of a table."""
    csv.writer(file := io.StringIO(), lineterminator="\n").writerows([COLUMNS, *rows])
    return file.getvalue()


if __name__ == "__main__":
    for path, text in made().items():
        path.write_text(text, encoding="utf-8")
