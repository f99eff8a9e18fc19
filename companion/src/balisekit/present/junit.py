"""The answer of `check` as JUnit writes the results of tests: a suite for each family of rules.

A suite has a case for each group and message, for each name that only the track plan has, and for each rule that
compared nothing. A group or message that some rules passed over is skipped, with the reason. The first suite also has a
case for each refused message, each entry at fault, and each column or sheet whose telegrams are not judged. Cases have
no time, because the program and the rules look at all groups in one run. Python's own XML library writes the file, so
its form does not depend on installed packages.
"""
from __future__ import annotations

import xml.etree.ElementTree as ElementTree
from collections import Counter
from functools import partial
from typing import Dict, Iterable, Iterator, List, Mapping, NamedTuple, Sequence, Tuple

from balisekit.present import NOT_PROVED
from balisekit.present.accepted_text import accepted_words
from balisekit.present.account_text import not_judged_lines
from balisekit.present.design_text import too_little
from balisekit.present.links_text import empty_rules
from balisekit.present.opening import Shown, paths_from
from balisekit.present.outcome_text import AnswerLine, Kind, item_words, lines_but
from balisekit.present.refusals import message_refused, refused
from balisekit.rules.accepted import Item, Judged
from balisekit.rules.checking import Checked, Place
from balisekit.rules.discovery import ADDED
from balisekit.rules.families import PROVED, Outcome, Part
from balisekit.rules.location import Location
from balisekit.tables.model import Group
from balisekit.tables.names import clean, describe_message

PROGRAMS = {PROVED: "balisecheck", ADDED: "added rules"}
"""Whose rules are applied, if they are not balisekit's."""
CASES = (Kind.REFUSED, Kind.LEFT_OUT, Kind.ENTRY, Kind.FAULT)
"""The kinds of lines that are cases."""
NAMES = {"failures": "failure", "errors": "error", "skipped": "skipped"}


class Listed(NamedTuple):
    """What only the track plan has, by its name in the plan."""

    name: str


class Case(NamedTuple):
    """The result of a group, a message, a rule or an entry: `failure`, `error`, `skipped`, or nothing if it passed."""

    kind: str
    name: str
    result: str = ""
    why: str = ""
    text: str = ""


def document(outcome: Outcome) -> bytes:
    """The file. The output of each suite has the lines of the answer that are about its rules and are no cases.

    That of the first one also has the lines that are about no rules.
    """
    suites = [(part, list(_cases(outcome, part))) for part in outcome.parts]
    shown, answer = paths_from(outcome.checked), lines_but(outcome, *CASES)
    top = ElementTree.Element("testsuites", _numbers([case for _, cases in suites for case in cases]))
    top.set("time", _seconds(sum(part.seconds for part in outcome.parts)))
    for part, cases in suites:
        program = PROGRAMS.get(part.family.letter, f"balisekit {part.family.things}")
        name = f"{program} {clean(shown(outcome.checked.table.path))}"
        suite = ElementTree.SubElement(top, "testsuite", {"name": name, **_numbers(cases)})
        suite.set("time", _seconds(part.seconds))
        for case in cases:
            element = ElementTree.SubElement(suite, "testcase", {"classname": case.kind, "name": case.name})
            if case.result:
                ElementTree.SubElement(
                    element, case.result, {"message": case.why, "type": case.result}
                ).text = case.text
        said = [*_output(answer, outcome, part)]
        if said:
            ElementTree.SubElement(suite, "system-out").text = "\n".join([*map(clean, said), NOT_PROVED])
    written: bytes = ElementTree.tostring(top, "utf-8", xml_declaration=True)
    return written + b"\n"


def _output(answer: Sequence[AnswerLine], outcome: Outcome, part: Part) -> Iterator[str]:
    """The output of a suite: what is about its rules, and in the first one also what is about none."""
    families = (part.family.letter, *([""] if part is outcome.parts[0] else []))
    return (line.text for line in answer if line.family in families)


def _numbers(cases: Sequence[Case]) -> Dict[str, str]:
    counts = Counter(case.result for case in cases)
    return {"tests": str(len(cases)), **{name: str(counts[result]) for name, result in NAMES.items()}}


def _seconds(time: float) -> str:
    return f"{time:.3f}"


def _cases(outcome: Outcome, part: Part) -> Iterator[Case]:
    """The cases of a suite. A refused message is only in the first one."""
    checked, is_first, case_of = outcome.checked, part is outcome.parts[0], partial(_case, outcome)
    items: Dict[object, List[Item]] = {}
    for item in part.items:
        for about in _about(item):
            items.setdefault(about, []).append(item)
    left_out, passed_over = dict(_left_out(checked)), _passed_over(part)
    for group in checked.table.groups:
        case = case_of("group", clean(group.name), items.get(group.name, []), passed_over.get(group.name, ""))
        yield case if case.result == "failure" else left_out.get(group.name, case)
    for accepted in checked.accepted_messages:
        name, number = describe_message(accepted.message), accepted.message.number
        yield case_of("message", name, items.get(number, []), passed_over.get(number, ""))
    for listed in (about for about in items if isinstance(about, Listed)):
        yield case_of("plan", clean(listed.name), items[listed], "")
    for rule, text in empty_rules(part.applied).items() if part.applied else ():
        yield Case("rule", rule, "error", text)
    if is_first:
        yield from _not_read(checked)
        yield from _bad_messages(checked)
        yield from _at_fault(outcome.judged, paths_from(checked)) if outcome.judged else ()
        yield from (Case("design", "confirmed", "error", why) for why in too_little(outcome))


def _passed_over(part: Part) -> Mapping[object, str]:
    """Why some rules have passed over a group or message, by its name or number."""
    some = part.applied.passed_over if part.applied else ()
    return {about.name if isinstance(about, Group) else about.number: clean(why) for about, why in some}


def _about(item: Item) -> Iterable[object]:
    """The names of the groups, the lines of the messages, and what only the track plan has, each once."""
    if isinstance(item, Place):
        return [item.group.name if item.group else item.message.number if item.message else None]
    return dict.fromkeys(map(_about_place, item.everywhere))


def _about_place(where: Location) -> object:
    if where.listed:
        return Listed(where.listed)
    return where.message.number if where.message else where.group.group.name if where.group else None


def _left_out(checked: Checked) -> Iterator[Tuple[str, Case]]:
    """The cases of the groups that were left out, by their names."""
    telegrams: Dict[str, str] = {}
    for telegram, item in zip(checked.refused, refused(checked)):
        words = telegrams.get(telegram.row.group, "")
        telegrams[telegram.row.group] = f"{words}{item.sentence}\n    program: {item.program}\n"
    for skipped in checked.left_out:
        name = skipped.group.name
        yield name, Case("group", clean(name), "error", f"left out: {clean(skipped.why)}", telegrams.get(name, ""))


def _not_read(checked: Checked) -> Iterator[Case]:
    """A case for each column and sheet with telegrams that nobody asked to leave out."""
    for each in checked.table.account.not_judged:
        if not each.asked:
            (text,) = not_judged_lines([each])
            yield Case("not judged", clean(", ".join(each.columns) or each.sheet or ""), "error", clean(each.why), text)


def _bad_messages(checked: Checked) -> Iterator[Case]:
    for bad in checked.refused_messages:
        why = message_refused(bad.message.text, bad.refusal)
        yield Case("message", describe_message(bad.message), "error", why, f"program: {bad.refusal.text}")


def _at_fault(judged: Judged, shown: Shown) -> Iterator[Case]:
    for fault, why in judged.faults:
        yield Case("accepted", f"row {fault.row}", "failure", why, f"{clean(shown(judged.entries.path))}: {why}")


def _case(outcome: Outcome, kind: str, name: str, items: Sequence[Item], passed_over: str) -> Case:
    """A group or message that was looked at: what is open of it, else what was accepted or passed over."""
    judged = outcome.judged
    still_open = [item for item in items if not (judged and judged.of(item))]
    if still_open:
        first = still_open[0]
        words = first.finding.line if isinstance(first, Place) else f"{first.rule}: {first.words}"
        why = f"{len(still_open)} open: {words}"
        return Case(kind, name, "failure", why, "\n".join(line for it in still_open for line in _lines(outcome, it)))
    accepted = (accepted_words(entry) for entry in map(judged.of, items) if entry) if judged else ()
    reasons = [*dict.fromkeys(accepted), *([f"passed over: {passed_over}"] if passed_over else [])]
    text = "\n".join(item_words(outcome, it) for it in items)
    return Case(kind, name, "skipped" * bool(reasons), "; ".join(reasons), text)


def _lines(outcome: Outcome, item: Item) -> List[str]:
    quoted = [f"    program: {item.finding.line}"] if isinstance(item, Place) else []
    return [item_words(outcome, item), *quoted]
