"""The answer of `check` as JSON, for other tools."""
from __future__ import annotations

from functools import partial
from typing import Any, Dict, Iterator, Tuple

from balisekit.engine.program import Record
from balisekit.io.outputs import Json, encode
from balisekit.present import accepted_text
from balisekit.present.account_text import account_json
from balisekit.present.check_text import groups_by_aspects
from balisekit.present.design_text import design_json
from balisekit.present.headings import not_decoded
from balisekit.present.links_text import FORMAT, rules_json
from balisekit.present.opening import Shown, paths_from, program_json, settings_json
from balisekit.present.outcome_text import item_words, last_lines, not_applied
from balisekit.present.refusals import message_refused, telegram_refused
from balisekit.rules.checking import Checked, LeftOut, Place, Refused, RefusedMessage
from balisekit.rules.discovery import letter_of
from balisekit.rules.entries import Entry
from balisekit.rules.families import PROVED, Outcome
from balisekit.rules.location import Location
from balisekit.rules.remarks import remarks
from balisekit.tables.model import Group, Message, Row


def as_json(outcome: Outcome) -> Dict[str, Any]:
    """All of the answer for other tools. The telegrams are an iterator, which decodes them."""
    checked = outcome.checked
    return {
        "format": FORMAT,
        **({"accepted": accepted_text.as_json(outcome.judged, outcome)} if outcome.judged else {}),
        "status": outcome.status,
        "last_line": last_lines(outcome)[-1],
        "families": list(outcome.letters),
        "not_applied": not_applied(outcome, paths_from(outcome.checked)),
        "verdict" if checked.whole else "rest": outcome.verdict.line if outcome.verdict else None,
        **_inputs(checked),
        **design_json(outcome, paths_from(outcome.checked)),
        "account": account_json(outcome),
        "counts": _counts(checked),
        "telegrams": _with_forms((_row(row), record) for row, record in checked.accepted.decoded()),
        "read_messages": _with_forms((_message(one.message), one.record) for one in checked.accepted_messages),
        "refused": map(_refused, checked.refused),
        "refused_messages": map(_refused_message, checked.refused_messages),
        "left_out": map(_left_out, checked.left_out),
        "kept": [group.name for group in checked.kept],
        "findings": map(partial(_finding, outcome), outcome.findings),
        "rules": rules_json([part.applied for part in outcome.parts if part.applied]),
        "notes": [note for part in outcome.parts if part.applied for note in part.applied.notes],
        "passed_over": _passed_over(outcome),
        "entries": entries_json(outcome),
        "not_decoded": not_decoded(checked),
    }


def _passed_over(outcome: Outcome) -> Iterator[Dict[str, Any]]:
    """The groups and messages that rules of balisekit have not looked at, or not all of them, and why."""
    for part in outcome.parts:
        for about, why in part.applied.passed_over if part.applied else ():
            yield {
                "family": part.family.letter,
                "group": about.name if isinstance(about, Group) else None,
                "message": about.number if isinstance(about, Message) else None,
                "why": why,
            }


def entries_json(outcome: Outcome) -> Iterator[Dict[str, Any]]:
    """An object for each entry, in the order of the answer."""
    return map(partial(_entry, outcome), outcome.entries)


def _entry(outcome: Outcome, entry: Entry) -> Dict[str, Any]:
    identity, accepted = outcome.identity(entry), outcome.acceptances(entry)
    return {
        "rule": entry.rule,
        "rules": list(entry.rules),
        "proved": letter_of(entry.rule) == PROVED,
        **_added(entry, paths_from(outcome.checked)),
        "urgency": entry.urgency.name.lower(),
        "sentence": entry.sentence,
        "rows": list(entry.rows),
        "other_rows": list(entry.other_rows),
        "also": list(map(_also, entry.remark.also)) if entry.remark else [],
        "group": entry.group.name if entry.group else None,
        "nid_c": identity[0] if identity else None,
        "nid_bg": identity[1] if identity else None,
        **_place_of(entry),
        "values": dict(entry.values),
        "program": list(entry.quoted),
        "expected": entry.expected or None,
        "state": "accepted" if accepted else "open",
        "accepted": [accepted_text.entry_json(each) for each in accepted],
        "folded": [_entry(outcome, folded) for folded in entry.folded],
    }


def _added(entry: Entry, shown: Shown) -> Dict[str, Any]:
    """Where the rule of an entry is from, if it is not balisekit's."""
    origin = entry.remark.origin if entry.remark else None
    if origin is None:
        return {}
    path = origin.path if origin.package else shown(origin.path)
    return {"added": {**{name: value or None for name, value in origin._asdict().items()}, "path": path}}


def _also(where: Location) -> Dict[str, Any]:
    """Another place that has what an entry is about."""
    return {
        "group": where.group.group.name if where.group else None,
        "row": where.row.number if where.row else None,
        "message": where.message.number if where.message else None,
    }


def _place_of(entry: Entry) -> Dict[str, Any]:
    """The part of its group or message that an entry is about."""
    return {
        "aspects": list(entry.aspects),
        "balises": [{"name": balise.name, "n_pig": balise.n_pig} for balise in entry.balises],
        "packet": entry.packet,
        "direction": entry.direction or None,
        "km": None if entry.km is None else str(entry.km),
        "message": entry.message.number if entry.message else None,
    }


def _inputs(checked: Checked) -> Dict[str, Any]:
    """The program and the files that were read."""
    program, table, messages, shown = checked.program, checked.table, checked.messages, paths_from(checked)
    return {
        "program": program_json(program),
        "settings": settings_json(checked.settings, shown),
        "table": {
            "path": shown(table.path),
            "sha256": table.sha256,
            "encoding": table.encoding,
            "passed_over": table.passed_over,
            "notes": table.notes,
        },
        "messages": {"path": shown(messages.path), "sha256": messages.sha256} if messages else None,
    }


def _counts(checked: Checked) -> Dict[str, Any]:
    table = checked.table
    return {
        "telegrams": len(table.rows),
        "groups": len(table.groups),
        "aspects": [{"aspects": count, "groups": len(groups)} for count, groups in groups_by_aspects(table)],
        "look": list(remarks(table)),
        "not_looked_at": checked.not_looked_at,
        "messages_not_looked_at": checked.messages_not_looked_at,
    }


def _row(row: Row) -> str:
    """The members of an object. `encode` takes twice as long for the object."""
    km = "null" if row.km is None else f'"{row.km!s}"'
    return (
        f'"row":{row.number},"group":{encode(row.group)},"name":{encode(row.name)},"km":{km},'
        f'"track":{encode(row.track)},"aspect":{encode(row.aspect)},"telegram":{encode(row.telegram)}'
    )


def _message(message: Message) -> str:
    return f'"line_of_file":{message.number},"name":{encode(message.name)}'


def _with_forms(pairs: Iterator[Tuple[str, Record]]) -> Iterator[Json]:
    """Objects with the program's line as their last member."""
    for members, record in pairs:
        yield Json(f'{{{members},"form":{record.line}}}')


def _refused(refused: Refused) -> Json:
    more = {
        "text": refused.refusal.text,
        "line": refused.refusal.line,
        "first_row_of_run": refused.first,
        "sentence": telegram_refused(refused.row.telegram, refused.refusal),
    }
    return Json(f"{{{_row(refused.row)},{encode(more)[1:]}")


def _refused_message(refused: RefusedMessage) -> Json:
    more = {
        "text": refused.refusal.text,
        "line": refused.refusal.line,
        "sentence": message_refused(refused.message.text, refused.refusal),
    }
    return Json(f"{{{_message(refused.message)},{encode(more)[1:]}")


def _left_out(left_out: LeftOut) -> Dict[str, Any]:
    rows = sorted({row.number for row in left_out.group.rows()})
    return {"group": left_out.group.name, "rows": rows, "why": left_out.why}


def _finding(outcome: Outcome, place: Place) -> Dict[str, Any]:
    finding, row = place.finding, place.row
    return {
        "line": finding.line,
        "rule": finding.rule,
        "name": finding.name,
        "group": place.group.name if place.group else None,
        "aspect": place.aspect,
        "row": row.number if row else None,
        "balise": finding.balise,
        "packet": finding.packet,
        "direction": finding.direction,
        "message": place.message.number if place.message else None,
        "earlier_group": place.earlier.name if place.earlier else None,
        "differs": str(place.statement),
        "words": item_words(outcome, place),
    }
