"""The answer of `check` in words: a part for each family of rules, what was not looked at, and one verdict."""
from __future__ import annotations

from enum import Enum
from typing import Iterable, Iterator, List, NamedTuple, Optional, Sequence, Tuple

from balisekit.io.inputs import is_python
from balisekit.present import headings
from balisekit.present.account_text import account_lines
from balisekit.present.accepted_text import accepted_words, fault_lines, verdict_lines
from balisekit.present.check_text import (
    aspects_found,
    head_line,
    last_line as last_line_of_program,
    left_out_lines,
    missing_in,
)
from balisekit.present.design_text import design_lines, too_little
from balisekit.present.explanations import Page, page_lines, pages
from balisekit.present.links_text import (
    compared,
    empty_rules,
    found,
    how_many_compared,
    not_compared,
    not_compared_in_short,
)
from balisekit.present.opening import Shown, opening, paths_from
from balisekit.present.refusals import lacking, not_tried, refused_lines
from balisekit.rules.accepted import UNNAMED, Item, keys
from balisekit.rules.applied import Applied
from balisekit.rules.checking import Place
from balisekit.rules.discovery import ADDED
from balisekit.rules.entries import Entry
from balisekit.rules.families import PLAN, PROVED, Outcome, Part
from balisekit.rules.remarks import remarks
from balisekit.tables.names import NAMED, clean, listed, notes_on, quoted
from balisekit.tables.plan import Plan

LINKS, MEANING = "L", "E"
COUNTED = (LINKS, PLAN, ADDED)
"""The families whose counts have a line of their own."""
NO_KILOMETRES = "no kilometres: rules over the line are not applied"
SHOWN = 20
"""How many items that no entry can name are listed. The others are counted."""


class Kind(Enum):
    """The kinds of lines that an answer has. Each output has all of them (companion/tests/test_lines_of_answers.py)."""

    HEAD = "how many telegrams and groups were read"
    PROGRAM = "the program"
    SETTINGS = "the settings"
    ACCEPTED = "the file of accepted entries"
    TABLE = "notes on the table"
    REFUSED = "what was refused"
    LEFT_OUT = "groups that were left out"
    NOT_TRIED = "how much was not tried"
    TITLE = "what is above entries"
    ENTRY = "an entry"
    SUMMARY = "how many findings there are"
    NOTE = "notes on what rules have found or passed over"
    COMPARED = "how much rules have compared"
    NOT_COMPARED = "why rules have not compared the rest"
    APPLIED = "which rules were applied"
    PAGE = "the page of a rule"
    NOT_DECODED = "packets that are kept as bits"
    LOOK = "remarks on names and kilometres"
    ASPECTS = "how many aspects groups have"
    UNNAMED = "what no entry can name"
    NOT_APPLIED = "rules that were not applied"
    DOCUMENT = "what the document lacks"
    FAULT = "entries at fault"
    OF_ENTRIES = "notes on entries"
    DESIGN = "how much the design confirms"
    ACCOUNT = "what became of the telegrams"
    VERDICT = "how much is open, and the verdict"


ABOUT_INPUTS = frozenset({Kind.ACCEPTED, Kind.TABLE, Kind.REFUSED, Kind.LEFT_OUT, Kind.NOT_TRIED, Kind.NOT_DECODED})
ABOUT_INPUTS |= {Kind.NOT_APPLIED, Kind.FAULT, Kind.OF_ENTRIES, Kind.DESIGN, Kind.ACCOUNT}


class AnswerLine(NamedTuple):
    """A line of an answer."""

    kind: Kind
    text: str
    family: str = ""
    """The letter of the family that it is about, if it is about one."""


def lines(
    outcome: Outcome,
    explained: bool = False,
    proposed: bool = False,
    notes: Sequence[str] = (),
    with_folded: bool = False,
) -> Iterator[str]:
    """The answer in words. With `proposed`, or with a file of entries, it lists items that no entry can name.

    `notes` are on what else was written. `with_folded` also lists the entries that are folded below another one.
    """
    in_short = not outcome.with_all
    return without_reasons(answer(outcome, str, explained, proposed, notes, True, with_folded, in_short))


def without_reasons(some: Iterable[AnswerLine]) -> Iterator[str]:
    """The texts of these lines. Rules L and X have a line with their counts, so the reasons are left out."""
    return (line.text for line in some if line.kind != Kind.NOT_COMPARED or line.family not in COUNTED)


def lines_but(outcome: Outcome, *others: Kind) -> List[AnswerLine]:
    """The lines of these kinds are shown otherwise by an output for tools. It has all other lines as they are."""
    shown, has_entries = paths_from(outcome.checked), Kind.ENTRY not in others
    return [each for each in answer(outcome, shown, has_entries=has_entries) if each.kind not in (Kind.TITLE, *others)]


def answer(
    outcome: Outcome,
    shown: Shown,
    explained: bool = False,
    proposed: bool = False,
    notes: Sequence[str] = (),
    has_entries: bool = True,
    with_folded: bool = False,
    in_short: bool = False,
) -> Iterator[AnswerLine]:
    """All lines of an answer, with paths as they are `shown`, or those that are about no entry.

    Those on what rules E pass over of sound lines too are one line `in_short`.
    """
    checked, judged, table = outcome.checked, outcome.judged, outcome.checked.table
    yield AnswerLine(Kind.HEAD, head_line(table, shown))
    yield from map(AnswerLine, (Kind.PROGRAM, Kind.SETTINGS, Kind.ACCEPTED), opening(checked, judged, shown))
    yield from _of(Kind.TABLE, [*notes_on(table), *notes_on_design(outcome.design, shown)])
    yield from _of(Kind.REFUSED, refused_lines(checked))
    yield from _of(Kind.LEFT_OUT, left_out_lines(checked))
    yield from _of(Kind.NOT_TRIED, (f"and {count}: --all continues" for count in not_tried(checked)))
    for part in outcome.parts:
        if outcome.letters != PROVED:
            none = " all folded below other entries" if part.items and not part.entries else ""
            yield AnswerLine(Kind.TITLE, f"{part.family.title}:{none if part.items else ' none'}")
        yield from _entries(outcome, part, with_folded) if has_entries else ()
        yield from behind(outcome, part, in_short)
    yield from _listed(outcome.expected, with_folded) if has_entries else ()
    yield from _of(Kind.PAGE, page_lines(explained_rules(outcome)) if explained else ())
    yield from _of(Kind.NOT_DECODED, not_decoded(outcome))
    yield from _of(Kind.LOOK, remarks(table))
    yield AnswerLine(Kind.ASPECTS, aspects_found(table))
    yield from _of(Kind.UNNAMED, unnamed_lines(outcome) if proposed or judged else ())
    yield from _of(Kind.NOT_APPLIED, not_applied(outcome, shown))
    yield from _of(Kind.DOCUMENT, notes)
    yield from _closing(outcome, shown)


def notes_on_design(design: Optional[Plan], shown: Shown) -> Iterator[str]:
    """Notes on how the files of a design were read, and on their sheets that were not."""
    for file in design.files if design else ():
        yield from (f"note: {clean(shown(file.path))}: {clean(note)}" for note in file.notes)
        if file.others:
            names = listed([quoted(name) for name in file.others], NAMED)
            yield f"note: {clean(shown(file.path))}: sheets without headings of a design, which are not read: {names}"


def _of(kind: Kind, texts: Iterable[str], part: Optional[Part] = None) -> Iterator[AnswerLine]:
    """Lines of one kind."""
    return (AnswerLine(kind, text, part.family.letter if part else "") for text in texts)


def _closing(outcome: Outcome, shown: Shown) -> Iterator[AnswerLine]:
    """What ends the answer: entries at fault, the account, how much is open, and the verdict."""
    judged = outcome.judged
    faults = list(fault_lines(judged, shown)) if judged else []
    count = len(judged.faults) if judged else 0
    yield from _of(Kind.FAULT, faults[:count])
    yield from _of(Kind.OF_ENTRIES, faults[count:])
    yield from _of(Kind.DESIGN, design_lines(outcome))
    yield from _of(Kind.ACCOUNT, account_lines(outcome))
    yield from _of(Kind.VERDICT, last_lines(outcome))


def _entries(outcome: Outcome, part: Part, with_folded: bool) -> Iterator[AnswerLine]:
    """The entries of a part, the open ones first. Open ones of correct data are not here."""
    yield from _listed([entry for entry in part.open if not entry.expected], with_folded)
    yield from _of(Kind.TITLE, ["accepted:"] if part.accepted else [])
    for entry in part.accepted:
        yield from _of(Kind.ENTRY, headings.entry_lines(entry))
        yield from _of(Kind.ENTRY, (f"    {accepted_words(each)}" for each in outcome.acceptances(entry)))


def behind(outcome: Outcome, part: Part, in_short: bool = False) -> Iterator[AnswerLine]:
    """The lines after the entries of a part: how many there are, or notes and what rules have compared."""
    if part.applied is None:
        quoting = [entry for each in outcome.parts for entry in each.open if entry.findings]
        yield from _of(Kind.SUMMARY, headings.summary(outcome.checked, quoting, outcome.judged is not None), part)
        return
    yield from _of(Kind.NOTE, notes_of(part), part)
    if part.family.letter in COUNTED:
        yield from _of(Kind.COMPARED, [compared(part.applied, part.family.letter != LINKS)], part)
    reasons = not_compared_in_short if in_short and part.family.letter == MEANING else not_compared
    yield from _of(Kind.NOT_COMPARED, reasons(part.applied), part)
    if part.family.letter == MEANING and not all(rule.is_default for rule in part.family.rules):
        yield from _of(Kind.APPLIED, [f"applied: {', '.join(rule.name for rule in part.family.rules)}"], part)


def _listed(entries: Sequence[Entry], with_folded: bool) -> Iterator[AnswerLine]:
    """Entries below the heading of their urgency."""
    for heading, entry in zip(headings.first_of_each(entries), entries):
        yield from _of(Kind.TITLE, [heading] if heading else [])
        yield from _of(Kind.ENTRY, headings.entry_lines(entry, with_folded))


def not_decoded(outcome: Outcome) -> Iterator[str]:
    """The packets that are kept as bits: the program's findings do not cover them."""
    return headings.not_decoded(outcome.checked)


def not_applied(outcome: Outcome, shown: Shown = str) -> List[str]:
    """Which rules were not applied, and why."""
    off = [f"added rules that are off until --rules names them: {', '.join(outcome.off)}"] if outcome.off else []
    names = ", ".join(clean(shown(each) if is_python(each) else each) for each in outcome.replaced)
    replaced = [f"not applied: {names}, which [check] rules_from names, because --rules-from replaces it"]
    left = ", ".join(outcome.outside)
    outside = [f"rules that are not applied because --only leaves out their families: {left}"] if left else []
    no_kilometres = [NO_KILOMETRES] if outcome.without_kilometres else []
    return [*no_kilometres, *off, *outside, *(replaced if names else [])]


def not_looked_at(outcome: Outcome) -> Iterator[str]:
    """What no verdict covers: packets that are not decoded, rules not applied, and things that were not compared."""
    yield from not_decoded(outcome)
    yield from not_applied(outcome)
    for part in outcome.parts:
        yield from not_compared(part.applied) if part.applied else ()


def notes_of(part: Part) -> List[str]:
    """The notes on what the rules of a part have found, and on what they have passed over."""
    return [f"note: {clean(note)}" for note in part.applied.notes] if part.applied else []


def explained_rules(outcome: Outcome) -> Iterator[Tuple[str, Page]]:
    """The page of each rule that has found something."""
    rules = {rule for entry in outcome.entries for rule in entry.rules}
    for part in outcome.parts:
        yield from ((name, page) for name, page in pages(part.family) if name in rules)


def unnamed_lines(outcome: Outcome) -> Iterator[str]:
    """The open items that no entry of a file can name."""
    judged, named = outcome.judged, zip(outcome.items, keys(outcome.items, outcome.checked))
    unnamed = [item for item, key in named if UNNAMED in key and not (judged and judged.of(item))]
    for item in unnamed[:SHOWN]:
        yield f"no entry can name {item_words(outcome, item)} ({_why_unnamed(item)})"
    if len(unnamed) > SHOWN:
        yield f"no entry can name {len(unnamed) - SHOWN} more"


def item_words(outcome: Outcome, item: Item) -> str:
    """A finding or a remark in one line."""
    return headings.words(outcome.entry_of(item))


def _why_unnamed(item: Item) -> str:
    message = item.message if isinstance(item, Place) else item.location.message
    return "its message has no name of its own" if message else "the identity of its group is not known"


def closing_lines(outcome: Outcome) -> List[str]:
    """What ends the answer."""
    return [line.text for line in _closing(outcome, str)]


def last_lines(outcome: Outcome) -> List[str]:
    """The verdict, and how much is open if there is a file of entries."""
    last, judged = verdict(outcome), outcome.judged
    return list(verdict_lines(judged, last, outcome.whole, outcome.letters)) if judged else [last]


def _found(part: Part, applied: Applied) -> str:
    """What the rules of a part have found, and how much was compared with a track plan."""
    counts = f", {how_many_compared(applied)}" if part.family.letter == PLAN else ""
    return f"{part.family.things}: {found(applied)}{counts}"


def about_inputs(outcome: Outcome, shown: Shown = str) -> List[str]:
    """The lines of an answer on how the inputs were read, and on what was not judged: not on what was found."""
    return [line.text for line in answer(outcome, shown, has_entries=False) if line.kind in ABOUT_INPUTS]


def missing(outcome: Outcome) -> List[str]:
    """What makes an answer INCOMPLETE: what was refused, left out or not read, and rules that compared nothing."""
    empty = [text for part in outcome.parts if part.applied for text in empty_rules(part.applied).values()]
    return [*missing_in(outcome.checked), *empty, *too_little(outcome)]


def verdict(outcome: Outcome) -> str:
    """The verdict of all parts: the program's, or that something was not looked at, then what other rules found.

    It is the program's line and nothing else if other rules have looked at all and found nothing, unless there is a
    track plan: then it counts what was compared with it.
    """
    checked = outcome.checked
    empty = [text for part in outcome.parts if part.applied for text in empty_rules(part.applied).values()]
    empty += too_little(outcome)
    said = [part for part in outcome.parts if part.items or PROVED not in outcome.letters or part.family.letter == PLAN]
    others = [_found(part, part.applied) for part in said if part.applied]
    if PROVED in outcome.letters:
        own = last_line_of_program(checked)
    else:
        own = f"INCOMPLETE: {', '.join(lacking(checked))}" if lacking(checked) else ""
    if empty and checked.whole:
        own, empty = "; ".join([f"INCOMPLETE: {', '.join(empty)}", *([own] if own else [])]), []
    return "; ".join([*([own] if own else []), *empty, *others])
