"""Parts of docs/assurance/proofs.md that are made of crates/*/specs, each between `<!-- PART -->` and `<!-- /PART -->`:

- `laws`: the laws of the reading edition, with the lines on which each of both sides rests
- `promises`: the lines on which each promise of the page rests, and those on which none does
- `order`: the files of the reading edition in the order in which they can be read
"""
from __future__ import annotations

import functools
import re
from typing import Iterator, List, Mapping, NamedTuple, Set, Tuple

from edition.definitions import TOP, Key, closure, conditions_of, definitions, in_order, key_of, lines, meant_in
from variables.page import table

PAGE = TOP / "docs/assurance/proofs.md"
EDITION = "etcs_edition"
PART = re.compile(r"(?s)(<!-- (laws|promises|order) -->\n).*?(?=<!-- /\2 -->\n)")
PROMISE = re.compile(r"(?m)^\| \*\*([\w ]+)\.\*\* .* \| (.*) \| (.*) \|$")
CALL = re.compile(r"`(\w+)::(?:\w+::)?(\w+)`(?: \(((?:`\w+`(?:, )?)+)\))?")
DEFINED = re.compile(r"`(\w+)/(\w+\.antt)`: ((?:`\w+`(?:, )?)+)")
COVERING = ("packet_numbers_agree", "kept_packets_agree", "running_directions_agree", "identities_agree",
            "reached_packets_agree")
CLAUSE = re.compile(r"(?s)\bensures (\w*) ?\{(.*?)\}\n")
STATED = {
    "Output": "outputs_agree", "Yes": "yes_agrees, a_yes_has_no_finding", "Meaning of a yes": "yes_agrees",
    "Findings": "findings_agree", "Groups by themselves": "findings_name_what_is_not_sound",
    "Telegrams": "telegrams_agree, a_text_has_one_record (telegrams)", "First fault": "first_faults_agree (telegrams)",
    "Texts": "telegram_texts_agree, reasons_agree (telegrams)",
    "There and back": "written_texts_agree, what_is_written_is_read, a_text_has_one_record",
    "Radio messages": "messages_agree, message_texts_agree, written_texts_agree (messages), reasons_agree (messages)",
    "JSON": "forms_agree, readings_agree, form_faults_agree", "Documents": "lines_agree, reasons_agree (documents)",
    "Library for C": "outputs_agree (check), telegram_texts_agree, message_texts_agree, reasons_agree, forms_agree"}
"""The laws of the edition that state a promise, each perhaps with one of its clauses."""
BESIDE: Mapping[str, List[Key]] = {
    "Output": [("etcs_run", "parsed_command")],
    "Library for C": [("balisecheck_c", it) for it in (
        "IsAnswer", "IsLength", "IsRecordAnswer", "telegram_fault", "message_fault")]}
"""What a promise names beside the definitions of these laws: the command that words are, and what calls return."""


class Law(NamedTuple):
    """A law of the edition: the definitions of the edition that it names, and those that they agree with."""

    name: str
    clause: str
    short: List[Key]
    others: List[Key]


def clauses_of(crate: str, name: str) -> Iterator[List[str]]:
    """The name, the words and the source of each clause that a function ensures. A law has one without a name."""
    for path in sorted(TOP.glob(f"crates/{crate}/src/**/*.rt")):
        text = path.read_text("utf-8")
        head = r"^ *(?:pub )?(?:extern \"C\" )?(?:final )?fn"
        for function in re.findall(rf"(?ms){head} {name}\b.*?(?={head} |\Z)", text):
            yield from ([clause, words, text] for clause, words in CLAUSE.findall(function))


def laws() -> Iterator[Law]:
    """The laws that definitions of the edition agree with others, in their order. Each such clause is a law by itself."""
    text = (TOP / f"crates/{EDITION}/src/laws.rt").read_text("utf-8")
    for law in re.findall(r"(?m)^pub fn (\w+)\(\)", text):
        for clause, words, source in clauses_of(EDITION, law):
            left, is_one, right = words.partition("↔")
            short = [it for it in meant_in(left, source) if it in definitions() and it[0].startswith(EDITION)]
            others = [it for it in meant_in(right, source) if it in definitions()]
            if is_one and not any(it[0].startswith(EDITION) for it in others):
                yield Law(law, clause, short, others)


@functools.lru_cache(None)
def covered() -> Mapping[Key, List[Key]]:
    """Definitions of other crates that those of the edition name, each with what the edition has instead of it."""
    return {key: law.short for law in laws() if law.name in COVERING for key in law.others}


def fewest(keys: List[Key]) -> int:
    """How many lines someone has to read for these, who may read what the edition has instead."""
    return min(lines(keys), lines(keys, covered()))


def roots_of(calls: str, cell: str) -> Set[Key]:
    """The definitions that a promise names, and those that the clauses and laws name which it cites."""
    found = {key_of(name, crate, file) for crate, file, names in DEFINED.findall(cell)
             for name in re.findall(r"\w+", names)}
    for crate, name, cited in CALL.findall(calls):
        wanted = re.findall(r"\w+", cited) or [""]
        found.update(key for clause, words, source in clauses_of(crate, name) if clause in wanted
                     for key in meant_in(words, source))
    return found


def stating(title: str) -> Tuple[str, Set[Key]]:
    """The laws of the edition that state a promise, and the definitions that they name on the edition's side."""
    found: Set[Key] = set()
    cited = []
    for law in filter(None, STATED.get(title, "").split(", ")):
        name, _, clause = law.rstrip(")").partition(" (")
        own = [(words.partition("↔")[0], source) for its, words, source in clauses_of(EDITION, name)
               if clause in ("", its)]
        assert own, law
        found.update(key for words, source in own for key in meant_in(words, source) if key in definitions())
        cited.append(f"`{name}`{f' (`{clause}`)' if clause else ''}")
    return ", ".join(cited), found | {key_of(name, crate) for crate, name in BESIDE.get(title, [])}


def laws_part() -> str:
    """A row for each law, and one for a yes together with the findings."""
    every = [*laws()]
    both = [it for it in every if it.name in ("yes_agrees", "findings_agree")]
    together = Law("both", "", [key for it in both for key in it.short], [key for it in both for key in it.others])
    rows = []
    for law in (*every, together):
        stated = both if law is together else [law]
        cited = ", ".join(f"`{it.name}`{f' (`{it.clause}`)' * bool(it.clause)}" for it in stated)
        short = ", ".join(f"`{it}`" for _, it in law.short)
        rows.append([short, cited, f"{fewest(law.short):,}", f"{lines(law.others):,}"])
    (yes,) = [it.short for it in every if it.name == "yes_agrees"]
    words = (f"Types of `src` that these definitions name have conditions, which these counts leave out: the number "
             f"and the size of a packet that is kept as bits (`is_kept` of `etcs_profile` and `etcs_radio`). The law "
             f"`kept_packets_agree` is about these conditions. With the edition's definitions of them a yes rests on "
             f"{lines([*yes, *conditions_of(yes)], covered()):,} lines.\n\n")
    assert {name for _, name in conditions_of(yes)} == {"is_kept"}, conditions_of(yes)
    return table(["Definition of the edition", "Law", "Lines", "Lines without it"], rows) + words


def promises_part(text: str) -> str:
    """A row for each promise of the page, and how many lines serve none of them."""
    roots = {title: roots_of(calls, cell) for title, calls, cell in PROMISE.findall(text)}
    reached = {it.key for keys in (*roots.values(), *(law.short for law in laws())) for it in closure(keys)}
    every = [it for it in definitions().values() if not it.is_proof]
    inner = [it for it in every if it.key not in reached]
    stated = {title: stating(title) for title in roots}
    assert {*STATED} <= {*roots}, "the page lacks a promise"
    rows = [[title, f"{lines(keys):,}", stated[title][0], f"{fewest([*stated[title][1]]):,}" if stated[title][1] else ""]
            for title, keys in roots.items()]
    return table(["Promise", "Lines", "Laws of the edition", "Lines with them"], rows) + (
        f"All `specs` together have {sum(it.lines for it in every):,} lines of definitions. No promise of this page "
        f"rests on {sum(it.lines for it in inner):,} of these lines.\n\n")


def order_part() -> str:
    """A row for each file of the reading order."""
    rows, count = [], 0
    for path, own in in_order([key for law in laws() for key in law.short], covered()):
        size = sum(it.lines for it in own)
        count += size
        link = f"[{path.relative_to(TOP).parts[1]}/{path.name}](../../{path.relative_to(TOP)})"
        rows.append([link, str(size), f"`{', '.join(f'{it.name} {it.line}' for it in own)}`"])
    return table(["File", "Lines", "Definitions, each with its line of the file"], [*rows, ["all", f"{count:,}", ""]])


def proofs_page() -> str:
    """The page with its parts as they are made now."""
    text = PAGE.read_text("utf-8")
    parts = {"laws": laws_part(), "promises": promises_part(text), "order": order_part()}
    assert {name for _, name in PART.findall(text)} == {*parts}, "the page lacks a part"
    return PART.sub(lambda it: f"{it[1]}\n{parts[it[2]]}", text)
