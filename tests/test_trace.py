"""The table of variables agrees with the program, with what definitions and balisekit state in words, and with the
pages and schemas that are made of it."""
import difflib
import json
import re

import pytest

from hostile import CHECK, DECODE, DECODE_RADIO, Job, shared
from runner import TOP, blocks
from balisekit.etcs.layout import bits_of, message_fields, telegram_fields
from edition.wire import cited, layouts, sections
from from_trace import FINDINGS, NUMBERING, about, made, names, numbers_in, unit_in, word_of
import records
from variables.page import RAW, compared_raw, raw_rows
from variables.table import COUNTED, Row, read_rows, rows_of

ROWS = read_rows()
VARIABLES = [it for it in ROWS if it.variable]
LAYOUTS = rows_of(ROWS)
# The keys that are not the variable's name in small letters.
OTHER_KEYS = {"V_LOA": "end_speed", "T_LOA": "end_timeout", "NC_CDDIFF": "nc", "NC_DIFF": "nc",
              "NID_LRBG": "nid_c nid_bg", "NID_PRVLRBG": "prv_nid_c prv_nid_bg"}


def fields_of(text):
    """The variables that balisekit finds in a telegram or message, each after the name of its layout."""
    fields = (telegram_fields if text[0] == "a" else message_fields)(bits_of(text))
    head = "header" if text[0] == "a" else f"message {fields[0].value}"
    kind = "train packet" if head == "message 136" else "packet"
    for it in fields:
        own = head if it.packet is None else f"{kind} {it.number}"
        yield own if own in LAYOUTS else f"{kind} other", it


def wrong_texts(text, field, row):
    """The text with each number at the border of those that the row has not, as a document, and what `check` writes."""
    bits, is_telegram = bits_of(text), text[0] == "a"
    title = "group 0 balise 0" if is_telegram else "message 0"
    end = "" if row.fault == "length" else f"{field.at + row.width}\n"  # (for a length, where the record ends)
    for number in {it for span in row.refused for it in span} if row.fault != "the end mark" else ():
        wrong = f"{bits[:field.at]}{number:0{row.width}b}{bits[field.at + row.width:]}"
        wrong = f"{int(wrong, 2):0{len(text)}x}"
        document = {"groups": [{"balises": [wrong]}] * is_telegram, "messages": [wrong] * (not is_telegram)}
        yield Job(CHECK, json.dumps(document).encode()), f"refused: {title}: {row.fault} at {field.at} end {end}"


def test_program():
    """The program reads random records of the table. It refuses any other number, for the fault in the table."""
    rows = {(layout, it.variable): it for layout, own in LAYOUTS.items() for it in own}
    met, wrong = set(), []
    for words, make in (DECODE, records.telegram), (DECODE_RADIO, records.message):
        drawn = [make() for _ in range(300)]
        lines = "".join(f"{records.FORM.encode(record)}\n" for _, record in drawn)
        (answer, _), = shared().play([Job(words, "\n".join(text for text, _ in drawn).encode())])
        assert answer.stdout == lines
        for text, (layout, field) in ((text, it) for text, _ in drawn for it in fields_of(text)):
            place = layout, field.name
            if place in rows and place not in met:
                assert rows[place].width == field.width or field.name == "body"
                assert bool(rows[place].fault) == bool(rows[place].refused)
                wrong += wrong_texts(text, field, rows[place])
                met.add(place)
    assert met == {*rows}
    for (answer, _), (_, said) in zip(shared().play([job for job, _ in wrong]), wrong):
        assert answer.stdout[:len(said)] == said


def test_names():
    """Each variable has the key of its name, and each object that of the qualifier that makes it present. The fields of
    tests/cases/packets.txt have the names that balisekit gives them."""
    for row in VARIABLES:
        assert " ".join(row.keys) in ("", OTHER_KEYS.get(row.variable, row.variable.lower())), row.title
        for part in re.findall(r"(\w+)/\w+$", row.key):
            assert row.when == f"Q_{part.replace('_', '').upper()} 1"
    for name, *lines in blocks("packets.txt"):
        fields = re.findall(r"(?m)^ +([01]+) +(?:the )?(\w+)", "\n".join(lines))
        found = telegram_fields("0" * 50 + "".join(digits for digits, _ in fields))[10:]
        assert [(it.digits, it.name) for it in found if it.digits] == fields, name


@pytest.mark.parametrize("row", [it for it in VARIABLES if it.variable != "NID_PACKET"], ids=lambda it: it.title)
def test_comments(row):
    """Comments on definitions have the width, numbers, meanings and unit of the row, but need not have all of them."""
    meanings = {first: words for first, _, words in row.spans}
    assert names(row.variable) or row.variable not in NUMBERING
    for number, word in names(row.variable).items():
        assert re.search(rf"\b{re.escape(word)}\b", meanings[number])
    for text in about(row.variable):
        read, others = numbers_in(text)
        assert text.split()[0] == row.bits and unit_in(text) in ("", row.unit) and {*others} <= {*row.refused}
        for first, last, words in read if row.numbers != COUNTED else ():
            assert first in meanings and last in [it[1] for it in row.spans] and words in ("", meanings[first]), text


def differences(rows, fields):
    """What differs between the rows of a layout and the fields that the edition lists for it, in their order."""
    listed = [it._replace(variable=name) for it in fields for name in it.variable.split(" or ")]
    if [it.variable for it in rows] != [it.variable for it in listed]:
        return ["the order of the variables"]
    either = {name for it in fields for name in it.variable.split(" or ") if " or " in it.variable}
    found, before = [], 0
    for row, it in zip(rows, listed):
        when = [*it.when] if it.when else ["", ()]
        is_end = row.fault == "the end mark" and it.only is None  # (255 is no packet)
        numbers = [*row.spans] if not is_end else [(0, 255, "")]
        found += [f"{row.variable}: {what}" for what, is_same in (
            ("bits", row.width == it.width), ("counted", (it.counted is not None) == (row.fault == "length")),
            ("its own bits", not it.counted or it.counted == before + it.width),
            ("least", row.numbers == COUNTED or it.counted is None or row.spans[0][0] == it.counted),
            ("condition", row.variable in either or [row.condition[0], tuple(row.condition[1])] == when),
            ("numbers", it.counted is not None or row.variable == "body" or
             (", " in row.layouts and it.only is not None and any(low <= it.only <= high for low, high, _ in numbers))
             or joined(numbers) == it.numbers)) if not is_same]
        before += it.width
    return found


def joined(found):
    """The spans of a row without their meanings: neighbours are one."""
    spans = []
    for first, last, *_ in found:
        spans[-1:] = [(spans[-1][0], last)] if spans and spans[-1][1] + 1 == first else [*spans[-1:], (first, last)]
    return spans


@pytest.mark.parametrize("name", [name for name, own in LAYOUTS.items() if own])
def test_edition(name):
    """The reading edition has the rows of each layout: variables in their order, widths, numbers and conditions. A row
    that is changed, moved or missing is noticed."""
    rows, fields = LAYOUTS[name], layouts()[name]
    assert differences(rows, fields) == []
    for at, row in enumerate(rows):
        assert differences([*rows[:at], *rows[at + 1:]], fields)
        assert differences([*rows[:at], row._replace(bits=str(row.width + 1)), *rows[at + 1:]], fields)
        assert differences([*rows[:at], row._replace(variable="N_OTHER"), *rows[at + 1:]], fields)
    assert differences([*rows[1:], rows[0]], fields)


def test_numbers_of_the_edition():
    """Other spare numbers and other conditions are noticed, and each number of a packet or message has its layout."""
    changes = (("header", "M_DUP", {"numbers": "0; 1"}), ("packet 27", "V_STATIC", {"numbers": "0 to 120"}),
               ("packet 12", "V_RELEASEDP", {"numbers": "0 to 120; 125 to 127"}), ("packet 5", "NID_C", {"when": ""}),
               ("train packet 1", "L_TRAININT", {"when": "Q_LENGTH 1"}))
    for name, variable, change in changes:
        rows = [it._replace(**change) if it.variable == variable else it for it in LAYOUTS[name]]
        assert differences(rows, layouts()[name]) != [], variable
    assert {*layouts()} == {name for name, own in LAYOUTS.items() if own}
    (numbers,) = {it.numbers for it in VARIABLES if it.variable == "NID_MESSAGE"}
    assert [first for first, _, _ in Row(numbers=numbers).spans] == [3, 136]
    telegram = (TOP / "crates/etcs_edition/specs/Telegram.antt").read_text("utf-8")
    assert re.search(r"(?m)^telegram_fields t = .*\+\+ any_number 8 255 ∷ \[\]$", telegram)


@pytest.mark.parametrize("variable, function", [
    ("M_VERSION", "version_field"), ("M_DUP", "dup_field"), ("Q_SCALE", "scale_field"), ("Q_DIR", "dir_field"),
    ("Q_DIRLRBG", "train3_field"), ("Q_DIRTRAIN", "train3_field"), ("M_LEVELTR", "level_fields"),
    ("M_LEVEL", "level_fields")])
def test_names_of_numbers_of_the_edition(variable, function):
    """The names that the edition gives to numbers are the meanings in the table."""
    text = (TOP / "crates/etcs_edition/specs/Variables.antt").read_text("utf-8")
    found = re.findall(rf"(?m)^{function} \(?\w+\.(\w+).*? = any_number \d (\d+)", text)
    (row,) = {(it.variable, it.numbers): it for it in VARIABLES if it.variable == variable}.values()
    assert [int(number) for _, number in found] == [first for first, _, _ in row.spans]
    for (name, _), (_, _, meaning) in zip(found, row.spans):
        assert re.search(rf"\b{re.escape(word_of(name))}\b", meaning), (name, meaning)


def test_words_of_the_edition():
    """The parser of layouts knows what these definitions of the wire mean."""
    wire = (TOP / "crates/etcs_edition/specs/Wire.antt").read_text("utf-8")
    for text in ("bit b = any_number 1 (if b then 1 else 0)", "qualified part None = bit false ∷ []",
                 "qualified part (Some x) = bit true ∷ part x", "up_to w last n = allowed_if w n (nat_le n last)",
                 "iterated part xs = any_number 5 (length xs) ∷ flat_map part xs",
                 "any_number w n = record { width = w; number = n; allowed = true }",
                 "allowed_if w n allowed = record { width = w; number = n; allowed = allowed }"):
        assert f"\n{text}\n" in wire


@pytest.mark.parametrize("row", [it for it in ROWS if it.layouts in LAYOUTS and not it.variable],
                         ids=lambda it: it.layouts)
def test_sections_of_the_edition(row):
    """The edition cites the sections of the row of each layout, beside the layout or for all layouts of the file."""
    own, others = cited(row.layouts)
    wanted = sections(row.section)
    assert own or row.layouts.endswith("other")
    assert {*wanted} <= {*own, *others} and all(it in wanted or it.rpartition(".")[0] in wanted for it in own)


def test_rules_and_words():
    """Each finding has a row. Each row names a section, or whose rule it is, and no word has two."""
    assert [it.layouts for it in ROWS if it.kind == "rule"] == [f"rule {rule}" for rule, *_ in FINDINGS]
    words = [it.layouts for it in ROWS if it.kind == "word"]
    assert len(words) == len({*words}) and all(it.section for it in ROWS)


def test_raw():
    """Variables of packets that the program keeps as bits are as in other packets, except the version."""
    known = {(it.variable, it.bits, it.numbers, it.unit) for it in VARIABLES}
    for row in raw_rows():
        if row.variable in {it.variable for it in VARIABLES} - {"M_VERSION"}:
            assert (row.variable, row.bits, row.numbers, row.unit) in known


def test_notes_of_raw_rows():
    """Each raw layout and variable has one row. Its note stays as long as the row, and is lost if the row changes."""
    rows = compared_raw([])
    names = [(it.layouts, it.variable) for it in rows]
    assert len(names) == len({*names}) == len(RAW["layouts"]) + len(RAW["variables"])
    noted = [it._replace(compared="A. Person, 3.6.0", date="2026-12-01").sealed() for it in rows]
    assert compared_raw(noted) == noted and all(it.sum for it in noted)
    changed = [it._replace(sum=it._replace(meaning="other", sum="").sealed().sum) for it in noted]
    assert compared_raw(changed) == rows


@pytest.mark.parametrize("path, text", made().items(), ids=lambda it: getattr(it, "name", ""))
def test_made(path, text):
    """What is made of the table is what `scripts/from_trace.py` makes now."""
    there = path.read_text(encoding="utf-8").splitlines()
    assert not [*difflib.unified_diff(there, text.splitlines(), "there", "made", lineterm="", n=0)]


def test_note():
    """The note of who compared a row stays as long as the row."""
    row = Row(layouts="header", variable="N_PIG", bits="3", compared="A. Person, 3.6.0", date="2026-11-28").sealed()
    assert row.sum and row.sealed() == row
    assert row._replace(bits="4").sealed()[-3:] == ("", "", "")
