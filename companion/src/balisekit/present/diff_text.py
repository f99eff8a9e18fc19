"""The answer of `diff` in words and as JSON."""
from __future__ import annotations

from datetime import datetime
from typing import Any, Dict, Iterator, Sequence

from balisekit.compare.moves import Exchanged, Renumbered
from balisekit.compare.releases import Changed, Difference
from balisekit.io import clock
from balisekit.present import NOT_PROVED
from balisekit.present.account_text import overlooked_lines
from balisekit.present.check_text import head_line
from balisekit.present.headings import finding_lines, finding_words
from balisekit.present.opening import (
    Shown,
    opening,
    paths_from,
    program_json,
    program_words,
    settings_json,
    settings_words,
)
from balisekit.present.pages import pieces
from balisekit.present.refusals import not_looked_at, overlooked, refused, refused_lines
from balisekit.rules.checking import Checked
from balisekit.tables.names import notes_on

ABOUT = f"pairs and differences are found by balisekit; {NOT_PROVED}"


def lines(found: Difference) -> Iterator[str]:
    """The answer in words."""
    for word, side in (("old", found.old), ("new", found.new)):
        yield f"{word}: {head_line(side.checked.table)}"
    yield from opening(found.new.checked)
    yield from (f"in old: {line}" for line in opening_of_old(found))
    yield ABOUT
    for word, side in (("old", found.old), ("new", found.new)):
        yield from (f"in {word}: {note}" for note in notes_on(side.checked.table))
    yield from (f"note: {note}" for note in found.notes)
    yield from not_compared(found)
    lists: Dict[str, Sequence[str]] = {
        "group removed": found.groups_removed,
        "group added": found.groups_added,
        "removed": found.removed,
        "added": found.added,
    }
    yield from (f"{title}: {words}" for title, telegrams in lists.items() for words in telegrams)
    yield from (f"group renumbered: {each.words}" for each in found.groups_renumbered)
    yield from (f"exchanged: {each.words}" for each in found.exchanged)
    for changed in found.changed:
        yield f"changed: {where(changed)}"
        yield from (f"    {change}" for change in changed.changes)
    yield from (f"changed in fill or case alone: {where(changed)}" for changed in found.respelled)
    yield from (line for place in found.findings_gone for line in finding_lines(place, "finding gone: "))
    yield from (line for place in found.findings_new for line in finding_lines(place, "finding new: "))
    yield f"unchanged: {found.unchanged}, SHA-256 {found.sha256}"
    yield last_line(found)


def opening_of_old(found: Difference) -> Iterator[str]:
    """The program and the settings of the old side where they are others than those of the new one.

    The command has the same ones for both sides. Results of the Python API have their own.
    """
    new = set(opening(found.new.checked))
    return (line for line in opening(found.old.checked) if line not in new)


def where(changed: Changed) -> str:
    """A telegram or message, and its rows."""
    return f"{changed.words}  rows {changed.old} and {changed.new}"


def not_compared(found: Difference) -> Iterator[str]:
    """What could not be compared."""
    for word, checked in (("old", found.old.checked), ("new", found.new.checked)):
        yield from refused_lines(checked, f"refused in {word}: ")
        yield from (f"in {word}: {text}" for text in overlooked_lines(checked.table))
        yield from (f"in {word}: {count}" for count in not_looked_at(checked))


def last_line(found: Difference) -> str:
    """How much differs, and whether all could be compared."""
    count, moved = len(found.groups_renumbered), sum(len(each.rows) for each in found.exchanged)
    parts = [
        f"groups added {len(found.groups_added)}, removed {len(found.groups_removed)}"
        + (f", renumbered {count}" if count else ""),
        f"telegrams and messages added {len(found.added)}, removed {len(found.removed)}, "
        f"changed {len(found.changed)}, in fill or case alone {len(found.respelled)}"
        + (f", exchanged {moved}" if moved else ""),
        f"findings new {len(found.findings_new)}, gone {len(found.findings_gone)}",
    ]
    lacks = _lacks(found)
    return f"{f'INCOMPLETE: {lacks}; ' if lacks else ''}{'; '.join(parts)}"


def _lacks(found: Difference) -> str:
    """What was not compared, if anything."""
    sides = found.old.checked, found.new.checked
    refused = any(side.refused or side.refused_messages or side.left_out for side in sides)
    lacks = ["the content of what was refused is not compared"] if refused else []
    lacks += ["names of aspects and messages are not compared"] if found.lacks_names else []
    return ", ".join([*lacks, *(text for side in sides for text in overlooked(side.table))])


def as_json(found: Difference) -> Dict[str, Any]:
    """All of the answer for other tools."""
    return {
        "status": found.status,
        "last_line": last_line(found),
        "not_proved": ABOUT,
        "program": program_json(found.new.checked.program),
        "settings": settings_json(found.new.checked.settings, paths_from(found.new.checked)),
        "old": _side_json(found.old.checked, paths_from(found.new.checked)),
        "new": _side_json(found.new.checked, paths_from(found.new.checked)),
        "notes": found.notes,
        "refused": not_compared(found),
        "groups_added": found.groups_added,
        "groups_removed": found.groups_removed,
        "groups_renumbered": (_renumbered_json(each) for each in found.groups_renumbered),
        "added": found.added,
        "removed": found.removed,
        "exchanged": (_exchanged_json(each) for each in found.exchanged),
        "changed": map(_changed_json, found.changed),
        "in_fill_or_case_alone": map(_changed_json, found.respelled),
        "unchanged": {"count": found.unchanged, "sha256": found.sha256},
        "findings_new": ({"words": finding_words(place), "line": place.finding.line} for place in found.findings_new),
        "findings_gone": ({"words": finding_words(place), "line": place.finding.line} for place in found.findings_gone),
    }


def _side_json(checked: Checked, shown: Shown) -> Dict[str, Any]:
    verdict = checked.verdict.line if checked.verdict and checked.whole else None
    table = checked.table
    return {
        "path": shown(table.path),
        "sha256": table.sha256,
        "verdict": verdict,
        "program": program_json(checked.program),
        "settings": settings_json(checked.settings, shown),
        "notes": notes_on(table),
    }


def _renumbered_json(each: Renumbered) -> Dict[str, Any]:
    rows = [sorted({row.number for row in group.rows()}) for group in (each.before, each.after)]
    return {"words": each.words, "rows_old": rows[0], "rows_new": rows[1]}


def _exchanged_json(each: Exchanged) -> Dict[str, Any]:
    return {"words": each.words, "telegrams": [{"row_old": was, "row_new": now} for was, now in each.rows]}


def _changed_json(changed: Changed) -> Dict[str, Any]:
    changes = [{**each._asdict(), "where": each.where_words} for each in changed.changes]
    return {"words": changed.words, "row_old": changed.old, "row_new": changed.new, "changes": changes}


def page(found: Difference, now: datetime) -> Iterator[str]:
    """The answer as a page in the style of the report."""
    checked = found.new.checked
    return pieces(
        "diff.html",
        ["palette.css", "page.css"],
        date=clock.stamp(now),
        found=found,
        sides=(("old", found.old.checked), ("new", found.new.checked)),
        refused=refused,
        not_looked_at=not_looked_at,
        overlooked_lines=overlooked_lines,
        notes_on=notes_on,
        finding_words=finding_words,
        verdict=verdict,
        shown=paths_from(checked),
        program=program_words(checked.program),
        settings=settings_words(checked.settings, paths_from(checked)),
        opening_of_old=list(opening_of_old(found)),
        where=where,
        last_line=last_line(found),
        not_proved=ABOUT,
    )


def verdict(checked: Checked) -> str:
    """The program's verdict on one release."""
    if not checked.whole:
        return "INCOMPLETE: telegrams or messages were refused or not read"
    return f"program: {checked.verdict.line}" if checked.verdict else "not checked"
