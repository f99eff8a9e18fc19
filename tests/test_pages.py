"""Pages for people: the numbers that they state, and their sentences."""
import os
import re

import pytest

import readability
from edition.definitions import key_of
from edition.proofs import fewest
from hostile import GROUPS, STACK
from runner import TOP, crate_uses
from variables.table import read_rows

LONGEST = 30
# A list of licences, and a table that scripts/from_trace.py makes.
NOT_COUNTED = ("THIRD-PARTY.md", "docs/variables.md")
PAGES = {name: path.read_text("utf-8") for pattern in ("*.md", "dist/**/*.md", "docs/**/*.md", "examples/**/*.md")
         for path in sorted(TOP.glob(pattern)) if (name := str(path.relative_to(TOP))) not in NOT_COUNTED}
FENCED = readability.FENCED
# Parts that scripts/from_specs.py makes have tables and the sentences of other files.
MADE = re.compile(r"(?s)<!-- (\w+) -->\n.*?<!-- /\1 -->\n")
YES, FOUND = (key_of(name, "etcs_edition") for name in ("SaysYes", "AreFindings"))
SAFETY, PROOFS = "docs/assurance/safety.md", "docs/assurance/proofs.md"
TESTING, ARCHITECTURE = "docs/contributing/testing.md", "docs/contributing/architecture.md"


def prose(text):
    """The paragraphs, headings, items and cells of a page, without code, quotes and targets of links."""
    parts = re.split(r"(?m)^(?= *(?:[-*|#]|\d+\.) ?)|\n\s*\n| \| ", readability.plain(text))
    return [" ".join(part.split()) for part in parts]


@pytest.mark.parametrize("name", PAGES)
def test_sentences(name):
    """No sentence is too long."""
    ends = r"(?<=[.!?])(?<!e\.g\.)(?<!i\.e\.)[*)]*\s+"
    sentences = [sentence for part in prose(MADE.sub("", PAGES[name])) for sentence in re.split(ends, part)]
    assert [sentence for sentence in sentences if len(sentence.split()) > LONGEST] == []


@pytest.mark.parametrize("name", PAGES)
def test_lengths_of_sentences(name):
    """At most one of ten sentences is short and one of 33 long."""
    shares = readability.of_page(MADE.sub("", PAGES[name]))
    odd = [it for it in shares.sentences if not readability.SHORT <= readability.words(it) <= readability.LONG]
    assert shares.is_readable, odd


@pytest.mark.parametrize("name", PAGES)
def test_words(name):
    """Each word is English, or the glossary explains it."""
    if not all(path.exists() for path in readability.DICTIONARIES):
        pytest.skip("the words of pages (wamerican, wbritish)")
    assert readability.unknown(MADE.sub("", PAGES[name])) == set()


def test_words_are_found():
    """Not in code, and in each form that the glossary explains."""
    if not all(path.exists() for path in readability.DICTIONARIES):
        pytest.skip("the words of pages (wamerican, wbritish)")
    text = "The `kode` of M_DUP, two Balises' LEUs, a well-formed group's [coulored](http://xyzzy.qq) frobnicator."
    assert readability.unknown(text) == {"coulored", "frobnicator"}


def test_lengths_are_counted():
    """Of sentences only: not of tables, code, quotes, headings, and bold words before an item."""
    text = ("# A heading.\n\nOne short sentence.\n\n| no. | table. |\n\n> No quote.\n\n```\nNo code.\n```\n\n"
            "- **Remedy.** This sentence has `seven of` plain words.\n- no sentence\n- Is this one short?\n")
    assert [readability.words(it) for it in readability.of_page(text).sentences] == [3, 6, 4]
    shares = [readability.of_paragraphs([" ".join(["Word"] * it) + "."]) for it in (4, 5, 28, 29)]
    assert [(it.short, it.long) for it in shares] == [(1, 0), (0, 0), (0, 0), (0, 1)]


def test_safety_names_known_problems():
    """The page on safety links the list of wrong answers."""
    assert "](../../ERRATA.md)" in PAGES[SAFETY]


@pytest.mark.parametrize("name", [name for name in PAGES if not name.startswith("dist/")])
def test_commands(name):
    """A file that a page tells to run, or shows with words after it, can be run."""
    for lead, code in re.findall(r"(?i)(\brun |\bby )?`([^`\n]+)`", FENCED.sub("", PAGES[name])):
        path, _, words = code.partition(" ")
        assert not (lead or words) or "/" not in path or not (TOP / path).is_file() or os.access(TOP / path, os.X_OK)


def test_readme_says_that_no_row_was_compared():
    """README has how many rows of the table can be compared with a print, as long as none was."""
    printed = [row for row in read_rows() if row.kind not in ("rule", "word")]
    assert f"Nobody has yet compared its {len(printed)} table rows with a printed SUBSET-026." in PAGES["README.md"]
    assert not [row for row in printed if row.compared]


def numbers():
    """Pages, a text with a number in each, and the number."""
    edits = [len([*TOP.glob(f"crates/{name}/must-fail/*.edit")]) for name in crate_uses()]
    named = sum(path.read_text("utf-8").count("name: ") for path in TOP.glob("crates/*/edits/**/*.edits"))
    kinds, doubts = [row.kind for row in read_rows()], [row for row in read_rows() if row.doubt]
    yield from ((TESTING, "{} of %d crates have none" % len(edits), edits.count(0)),
                (ARCHITECTURE, "`check` of {} sound groups", f"{GROUPS:,}"), (ARCHITECTURE, "{} KiB of stack", STACK),
                (PROOFS, r"\({} edits\)", f"{named:,}"), (PROOFS, "the {} in `must-fail/`", sum(edits)),
                (SAFETY, "the {} of these rows", len(doubts)),
                (SAFETY, "{} lines for a yes", fewest([YES])), (SAFETY, "{} with the findings", fewest([YES, FOUND])),
                *((SAFETY, f"the {{}} rows `{kind}`", kinds.count(kind)) for kind in ("rule", "word")))


def test_numbers():
    """Each number that a page states is the one that is computed."""
    for page, text, number in numbers():
        found = re.findall(text.replace("{}", r"([\d.,]*\d)"), PAGES[page])
        assert {*found} == {str(number)}, (page, text)
    assert len([*TOP.glob("crates/*/must-fail/*.edit")]) <= 6
