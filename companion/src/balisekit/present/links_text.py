"""The answer of `links` in words and as JSON."""
from __future__ import annotations

import re
from collections import Counter
from dataclasses import replace
from typing import Any, Dict, Iterator, List, Sequence

from balisekit.present import NOT_PROVED
from balisekit.present.account_text import overlooked_lines
from balisekit.present.check_text import head_line
from balisekit.present.explanations import page_lines, pages
from balisekit.present.headings import words
from balisekit.present.opening import opening, paths_from, program_json, settings_json
from balisekit.present.refusals import lacking, refused_lines
from balisekit.rules.checking import Checked
from balisekit.rules.discovery import first_to_last
from balisekit.rules.families import FAMILIES, entry_of_remark
from balisekit.rules.links import L2, RULES, Links
from balisekit.rules.location import ANOTHER_TRACK, NO_TRACK
from balisekit.rules.rule import Remark, Result, Rule
from balisekit.tables.names import clean, counted, passed_over

OF_RULES = first_to_last(RULES)
FORMAT = 1
"""The version of the JSON. An added key does not change it."""
LEAVING = {ANOTHER_TRACK: "to another track", NO_TRACK: "between a group without a track and one with a track"}
"""What is said of links that leave a track, by the reason for which L2 does not compare them."""
ABOUT = f"{OF_RULES} are rules of balisekit; {NOT_PROVED}"


def status_of(checked: Checked, links: Links) -> int:
    """2 if something was refused or a rule compared nothing, else 1 if something was found, else 0."""
    if not checked.whole or links.empty:
        return 2
    return 1 if links.remarks else 0


def lines(checked: Checked, links: Links, explained: bool = False) -> Iterator[str]:
    """The answer in words."""
    table = checked.table
    yield head_line(table)
    yield from opening(checked)
    yield from passed_over(table)
    yield ABOUT
    yield from (f"note: {clean(note)}" for note in (*table.notes, *links.notes))
    yield from refused_lines(checked)
    yield from overlooked_lines(table)
    yield from map(_words, links.remarks)
    if explained:
        rules = {remark.rule for remark in links.remarks}
        yield from page_lines((name, page) for name, page in pages(FAMILIES["L"]) if name in rules)
    yield last_line(checked, links)


def _words(remark: Remark) -> str:
    return words(entry_of_remark(remark))


def last_line(checked: Checked, links: Links) -> str:
    """How many were found and by which rules, and what each rule has compared. It is never a yes."""
    parts = [*lacking(checked), *empty_rules(links).values()]
    count = len(checked.table.groups)
    where = "the rest" if lacking(checked) else f"{count} group{'s' * (count != 1)}"
    said = f"links: {found(links, f' of {OF_RULES}')} in {where}; {compared(links)}"
    return f"INCOMPLETE: {', '.join(parts)}; {said}" if parts else said


def found(links: Links, rules: str = "") -> str:
    """How many remarks there are, and of which rules."""
    counts = [f"{rule.name} {len(result.found)}" for rule, result in links.results.items() if result.found]
    return f"{len(links.remarks)} found ({', '.join(counts)})" if counts else f"none found{rules}"


def compared(links: Links, with_reasons: bool = False) -> str:
    """What each rule has compared, and why not the rest if that is asked for; then the links that leave a track.

    Rules that have compared the same number of the same things are named together.
    """
    rules: Dict[str, List[str]] = {}
    for rule, result in links.results.items():
        rules.setdefault(_compared(rule, result, with_reasons), []).append(rule.name)
    counts = links.results[L2].not_looked_at if L2 in links.results else {}
    leaving = [f"{counted(counts[why], 'link')} {words}" for why, words in LEAVING.items() if counts.get(why)]
    more = f"; not compared: {', '.join(leaving)}" if leaving else ""
    things = ", ".join(f"{things} ({', '.join(names)})" for things, names in rules.items())
    return f"compared: {things}{more}"


def how_many_compared(links: Links) -> str:
    """How many things all rules have compared, and how many not, by the reason."""
    looked_at = sum(result.looked_at for result in links.results.values())
    skipped: Counter[str] = Counter()
    for result in links.results.values():
        skipped.update(result.not_looked_at)
    reasons = ", ".join(f"{why}: {count}" for why, count in skipped.items() if count)
    return f"{looked_at} compared" + (f", {sum(skipped.values())} not ({reasons})" if reasons else "")


def empty_rules(links: Links) -> Dict[str, str]:
    """By its name, what is said of each rule that has compared nothing, and why."""
    return {rule.name: _empty(rule, links.results[rule]) for rule in links.empty}


def _empty(rule: Rule, result: Result) -> str:
    return f"{rule.name} compared none of {_things(rule, result.skipped)} ({_reasons(result)})"


def _reasons(result: Result) -> str:
    """Why things were not compared."""
    return ", ".join(f"{why}: {count}" for why, count in result.not_looked_at.items() if count)


def _compared(rule: Rule, result: Result, with_reasons: bool) -> str:
    """What a rule has compared, and of how many things if there are more."""
    of_how_many = f"{result.looked_at} of " if result.skipped else ""
    reasons = f" ({_reasons(result)})" if with_reasons and result.skipped else ""
    return f"{of_how_many}{_things(rule, result.looked_at + result.skipped)}{reasons}"


def not_compared(links: Links) -> Iterator[str]:
    """How many things each rule has not looked at, and why."""
    for rule, result in links.results.items():
        if result.skipped:
            of_all = _things(rule, result.looked_at + result.skipped)
            yield f"not compared by {rule.name}: {result.skipped} of {of_all} ({_reasons(result)})"


def is_usual(result: Result) -> bool:
    """Whether a rule has compared something, and passed over only what it passes over of sound lines too."""
    return result.looked_at > 0 and not result.unusually_skipped


def not_compared_in_short(links: Links) -> Iterator[str]:
    """The same. Rules that passed over only what sound lines have too are one line, with their counts."""
    skipping = {rule: result for rule, result in links.results.items() if result.skipped}
    usual = [rule for rule, result in skipping.items() if is_usual(result)]
    others = {rule: result for rule, result in skipping.items() if rule not in usual}
    yield from not_compared(replace(links, results=others))
    if usual:
        counts = (f"{skipping[rule].skipped} of {_things(rule, _all_things(skipping[rule]))}" for rule in usual)
        rules = ", ".join(f"{count} ({rule.name})" for rule, count in zip(usual, counts))
        yield f"not compared, as of most lines: {rules}; --all lists the reasons"


def _all_things(result: Result) -> int:
    """How many things there are."""
    return result.looked_at + result.skipped


def _things(rule: Rule, count: int) -> str:
    return f"{count} {singular(rule.looks_at) if count == 1 else rule.looks_at}"


def singular(things: str) -> str:
    """The singular of what a rule looks at. Its first plural is the main noun."""
    return re.sub(r"(ie)?s\b", lambda end: "y" * bool(end[1]), things, count=1)


def as_json(checked: Checked, links: Links) -> Dict[str, Any]:
    """All of the answer for other tools."""
    table = checked.table
    return {
        "format": FORMAT,
        "status": status_of(checked, links),
        "last_line": last_line(checked, links),
        "not_proved": ABOUT,
        "program": program_json(checked.program),
        "settings": settings_json(checked.settings, paths_from(checked)),
        "table": {"path": paths_from(checked)(table.path), "sha256": table.sha256, "passed_over": table.passed_over},
        "counts": {
            "telegrams": len(table.rows),
            "groups": len(table.groups),
            "refused": len(checked.refused),
            "refused_messages": len(checked.refused_messages),
            "not_looked_at": checked.not_looked_at,
            "not_read": table.account.overlooked,
            "possible": table.account.possible,
            "not_known": table.account.unknown,
        },
        "rules": rules_json([links]),
        "notes": [*table.notes, *links.notes],
        "found": map(_remark_json, links.remarks),
    }


def rules_json(some: Sequence[Links]) -> Dict[str, Any]:
    """What each rule has looked at."""
    return {rule.name: _rule_json(rule, result) for links in some for rule, result in links.results.items()}


def _rule_json(rule: Rule, result: Result) -> Dict[str, Any]:
    return {
        "looks_at": rule.looks_at,
        "found": len(result.found),
        "looked_at": result.looked_at,
        "not_looked_at": {why: count for why, count in result.not_looked_at.items() if count},
    }


def _remark_json(remark: Remark) -> Dict[str, Any]:
    where = remark.location
    return {
        "rule": remark.rule,
        "group": where.group.group.name if where.group else None,
        "row": where.row.number if where.row else None,
        "message": where.message.number if where.message else None,
        "packet": where.packet,
        "direction": where.direction or None,
        "link": where.link,
        "about": remark.about.group.name if remark.about else None,
        "metres_by_d_link": None,
        "metres_by_kilometres": None,
        **{name: str(value) for name, value in remark.values.items()},
        "words": _words(remark),
    }
