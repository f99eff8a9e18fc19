"""The answer of `check` as SARIF 2.1.0 (OASIS), by which code hosts show what was found at the rows of a table.

A result is an entry of `check`, a telegram or message that was refused or is not read, a rule that compared nothing, or
an accepted entry at fault.
What was accepted is suppressed, with its reason. The fingerprint of a result is made of its rule and of what names it
in a file of accepted findings, so that it survives new rows. All other lines of the answer are notifications.
"""
from __future__ import annotations

import hashlib
import os
from collections import Counter
from functools import lru_cache
from pathlib import Path
from typing import Any, Dict, Iterator, List, Optional, Sequence, Tuple
from urllib.parse import quote

from balisekit import __version__
from balisekit.io import inputs
from balisekit.present import NOT_PROVED
from balisekit.present.accepted_text import accepted_words
from balisekit.present.account_text import account_json, not_judged_lines
from balisekit.present.design_text import design_json
from balisekit.present.explanations import Page, address_of_page, pages
from balisekit.present.headings import entry_lines
from balisekit.present.links_text import empty_rules
from balisekit.present.opening import paths_from, settings_json
from balisekit.present.outcome_text import Kind, lines_but
from balisekit.present.refusals import message_refused, refused
from balisekit.rules.accepted import COLUMNS, NEEDED, Judged, keys
from balisekit.rules.discovery import letter_of
from balisekit.rules.entries import Entry
from balisekit.rules.families import PROVED, Outcome, items_of
from balisekit.rules.rule import Rule, Urgency
from balisekit.rules.template import escaped
from balisekit.tables import csv as csv_file
from balisekit.tables.csv import lines_of_rows
from balisekit.tables.headings import Headings
from balisekit.tables.names import clean

SCHEMA = "https://docs.oasis-open.org/sarif/sarif/v2.1.0/errata01/os/schemas/sarif-schema-2.1.0.json"
LEVELS = {
    Urgency.WRONG_INFORMATION: "error",
    Urgency.WRONG_PLACE: "error",
    Urgency.NOT_JUDGED: "warning",
    Urgency.BRAKING: "warning",
    Urgency.RULE_ONLY: "note",
}
REFUSED = "refused"
"""The identifier of a result for what the program has refused."""
REFUSED_PAGE = Page("a telegram or message that the program refuses", {"How to correct it": "See docs/refusals.md."})
NOT_JUDGED = "not-judged"
"""The identifier of a result for telegrams in a column or sheet that is not read."""
NOT_JUDGED_PAGE = Page("telegrams that are not judged", {"How to correct it": "See the account in docs/commands.md."})
SENTENCE = "sentence"
"""The identifier of the template of an added rule."""
NOT_COMPARED = "not-compared"
"""The identifier of a result for a rule that compared nothing of what it had to."""
NOT_COMPARED_PAGE = Page(
    "a rule that compared nothing",
    {"How to correct it": "The result has the reason: correct the table or the plan, or omit the family by --only."},
)
AT_FAULT = "entry-at-fault"
"""The identifier of a result for an entry of the file of accepted findings that accepts nothing."""
AT_FAULT_PAGE = Page("an accepted entry at fault", {"How to correct it": "See accepted findings in docs/guide.md."})
FINGERPRINT = "balisekit/v1"
INCOMPLETE = 2
"""The status of an answer that does not cover all that was asked for."""
Object = Dict[str, Any]
Lines = Sequence[Tuple[int, int]]
"""The first and the last line of each row of a file."""


def document(outcome: Outcome) -> Object:
    """The object of the file."""
    added = {rule.name: rule for part in outcome.parts for rule in part.family.rules if rule.template}
    rules = [{**_rule(name, page), **_added(added.get(name))} for name, page in _pages(outcome)]
    numbers = {rule["id"]: number for number, rule in enumerate(rules)}
    lines = _lines(outcome)
    lacking = [*_refused(outcome, lines), *_not_read(outcome, lines), *_not_compared(outcome, lines)]
    results = [*lacking, *_at_fault(outcome), *_entries(outcome, lines)]
    seen: Counter[str] = Counter()
    for result in results:
        result["ruleIndex"] = numbers[result["ruleId"]]
        fingerprint = result["partialFingerprints"][FINGERPRINT]
        seen[fingerprint] += 1
        result["partialFingerprints"][FINGERPRINT] += f":{seen[fingerprint]}"
    checked = outcome.checked
    about = {
        "program": checked.program.version,
        "programKind": checked.program.kind,
        "programSha256": checked.program.sha256,
        "programKnownBy": checked.program.known_by,
        **({"programNode": checked.program.about["node"]} if "node" in checked.program.about else {}),
        "settings": settings_json(checked.settings, paths_from(checked)),
    }
    driver = {"name": "balisekit", "version": __version__, "fullName": f"balisecheck and balisekit; {NOT_PROVED}"}
    run = {
        "tool": {"driver": {**driver, "rules": rules, "properties": about}},
        "columnKind": "unicodeCodePoints",
        "originalUriBaseIds": {"%SRCROOT%": {"description": {"text": "the folder in which the command ran"}}},
        "invocations": [_invocation(outcome)],
        "results": results,
        "properties": {**design_json(outcome, paths_from(checked)), "account": account_json(outcome, clean)},
    }
    return {"$schema": SCHEMA, "version": "2.1.0", "runs": [run]}


def _invocation(outcome: Outcome) -> Object:
    """How the run has ended. The lines of the answer are notifications, apart from results."""
    lines = lines_but(outcome, Kind.REFUSED, Kind.ENTRY, Kind.FAULT)
    return {
        "executionSuccessful": outcome.status != INCOMPLETE,
        "exitCode": outcome.status,
        "exitCodeDescription": lines[-1].text,
        "toolExecutionNotifications": [{"level": "note", "message": {"text": line.text}} for line in lines],
    }


def _pages(outcome: Outcome) -> Iterator[Tuple[str, Page]]:
    yield REFUSED, REFUSED_PAGE
    yield NOT_JUDGED, NOT_JUDGED_PAGE
    yield NOT_COMPARED, NOT_COMPARED_PAGE
    yield AT_FAULT, AT_FAULT_PAGE
    for part in outcome.parts:
        yield from pages(part.family)


def _rule(name: str, page: Page) -> Object:
    """A rule with its help: what its page says, and where the page is, if it is installed."""
    says = "\n\n".join(f"{head}. {text}" for head, text in page.parts.items())
    marked = "\n\n".join(f"**{head}.** {text}" for head, text in page.parts.items())
    is_proved = name == REFUSED or letter_of(name) == PROVED
    address = address_of_page(name)
    return {
        "id": name,
        **({"helpUri": address} if address else {}),
        "shortDescription": {"text": page.title},
        "fullDescription": {"text": page.parts.get("What it says", page.title)},
        "help": {"text": says, "markdown": marked},
        "properties": {"tags": ["the program's, proved" if is_proved else "balisekit's own, not proved"]},
    }


def _added(rule: Optional[Rule]) -> Object:
    """The template of an added rule, and that the rule is not balisekit's."""
    if rule is None or rule.template is None:
        return {}
    tags = {"tags": ["added, not balisekit's, not proved"]}
    return {"messageStrings": {SENTENCE: {"text": rule.template.numbered}}, "properties": tags}


def _lines(outcome: Outcome) -> Lines:
    """The lines of the rows of a CSV. A workbook or a changed file has none: then row numbers are used."""
    table = outcome.checked.table
    file = None if table.encoding == "xlsx" else inputs.read(table.path)
    return lines_of_rows(file.content, table.separator) if file and file.sha256 == table.sha256 else ()


def _refused(outcome: Outcome, lines: Lines) -> Iterator[Object]:
    checked = outcome.checked
    for telegram, item in zip(checked.refused, refused(checked)):
        text = f"{item.sentence}\nprogram: {item.program}"
        location = _location(checked.table.path, [telegram.row.number], lines)
        yield _result(REFUSED, "error", text, [location], telegram.row.telegram)
    for bad in checked.refused_messages:
        text = f"{message_refused(bad.message.text, bad.refusal)}\nprogram: {bad.refusal.text}"
        path = checked.messages.path if checked.messages else ""
        yield _result(REFUSED, "error", text, [_location(path, [bad.message.number])], bad.message.text)


def _not_read(outcome: Outcome, lines: Lines) -> Iterator[Object]:
    table = outcome.checked.table
    for each in table.account.not_judged:
        if not each.asked:
            (text,) = not_judged_lines([each])
            location = _location(table.path, each.rows, lines)
            yield _result(NOT_JUDGED, "error", text, [location], f"{each.sheet} {', '.join(each.columns) or None}")


def _not_compared(outcome: Outcome, lines: Lines) -> Iterator[Object]:
    """A result for each rule that compared nothing, at all rows of the table."""
    table = outcome.checked.table
    location = _location(table.path, [row.number for row in table.rows], lines)
    for part in outcome.parts:
        for text in empty_rules(part.applied) if part.applied else ():
            yield _result(NOT_COMPARED, "error", text, [location], text.split(" ", 1)[0])


def _at_fault(outcome: Outcome) -> Iterator[Object]:
    judged = outcome.judged
    if judged is None or not judged.faults:
        return
    path, lines = judged.entries.path, _lines_of_entries(judged)
    for fault, why in judged.faults:
        text = f"{clean(paths_from(outcome.checked)(path))}: row {fault.row}: {why}"
        yield _result(AT_FAULT, "error", text, [_location(path, [fault.row], lines)], f"{fault.key}")


def _lines_of_entries(judged: Judged) -> Lines:
    """The lines of the rows of a file of accepted findings. A changed file has none: then row numbers are used."""
    file = inputs.read(judged.entries.path)
    if file.sha256 != judged.entries.sha256:
        return ()
    return lines_of_rows(file.content, csv_file.read(file.content, Headings(COLUMNS, NEEDED)).separator)


def _entries(outcome: Outcome, lines: Lines) -> Iterator[Object]:
    names = {id(item): key for item, key in zip(outcome.items, keys(outcome.items, outcome.checked))}
    for entry in outcome.entries:
        link = entry.remark.location.link if entry.remark else None
        own = sorted(names[id(item)] for item in items_of(entry))
        text = "\n".join(entry_lines(entry, with_folded=True))
        result = _result(entry.rule, LEVELS[entry.urgency], text, _locations(outcome, entry, lines), f"{own} {link}")
        result["properties"] = {"urgency": entry.urgency.name.lower(), "values": dict(entry.values)}
        if entry.remark and entry.remark.origin:
            message = {"text": escaped(text), "id": SENTENCE, "arguments": list(entry.remark.arguments)}
            result["message"] = message
        accepted = outcome.acceptances(entry)
        if accepted:
            why = "; ".join(map(accepted_words, accepted))
            result["suppressions"] = [{"kind": "external", "status": "accepted", "justification": why}]
        yield result


def _locations(outcome: Outcome, entry: Entry, lines: Lines) -> List[Object]:
    """The rows or the message of an entry, then those of the other places that have it too."""
    checked = outcome.checked
    messages = [entry.message.number] if entry.message else []
    groups: Dict[str, List[int]] = {} if messages else {entry.group.name if entry.group else "": list(entry.rows)}
    for where in entry.remark.also if entry.remark else ():
        if where.message:
            messages.append(where.message.number)
        elif where.group:
            rows = groups.setdefault(where.group.group.name, [])
            rows += [where.row.number] if where.row else []
    path = checked.messages.path if checked.messages else ""
    of_messages = [_location(path, [number]) for number in dict.fromkeys(messages)]
    return [*(_location(checked.table.path, rows, lines, name) for name, rows in groups.items()), *of_messages]


def _location(path: str, rows: Sequence[int], lines: Lines = (), group: str = "") -> Object:
    """The rows of a table, or the line of a file of messages."""
    first, last = min(rows, default=1), max(rows, default=1)
    if lines:
        first, last = lines[first - 1][0], lines[last - 1][1]
    region = {"startLine": first, "endLine": last}
    place: Object = {"physicalLocation": {"artifactLocation": _file(path, os.getcwd()), "region": region}}
    return {**place, "logicalLocations": [{"name": clean(group), "kind": "object"}]} if group else place


@lru_cache
def _file(path: str, folder: str) -> Object:
    """A file, by its path from the folder in which the command runs, if it is inside: code hosts need that."""
    inside = os.path.relpath(path, folder)
    path = path if inside.startswith(os.pardir) else inside
    is_relative = not os.path.isabs(path)
    return {"uri": quote(path), "uriBaseId": "%SRCROOT%"} if is_relative else {"uri": Path(path).as_uri()}


def _result(rule: str, level: str, text: str, locations: List[Object], stays: str) -> Object:
    digest = hashlib.sha256(f"{rule} {stays}".encode("utf-8", "surrogatepass")).hexdigest()
    return {
        "ruleId": rule,
        "level": level,
        "message": {"text": text},
        "locations": locations,
        "partialFingerprints": {FINGERPRINT: digest},
    }
