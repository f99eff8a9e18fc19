"""Reads a certificate that was made before, for the cover of a report. Only what its figures say is believed."""
from __future__ import annotations

import json
from collections import Counter
from typing import Any, Callable, Dict, Mapping, NamedTuple, Optional, Sequence, Set, Tuple

from balisekit.certificate.certificate import Score, kinds_of_fields
from balisekit.certificate.judging import Answer
from balisekit.errors import TableError, faults_of
from balisekit.io import inputs
from balisekit.present.certificate_json import FORMAT, inputs_json, score_json
from balisekit.present.certificate_text import line_of
from balisekit.present.outcome_text import missing
from balisekit.rules.families import Outcome
from balisekit.tables.settings import Settings

Json = Any
AGAIN = "make it again with `certify --json FILE`"


class Certified(NamedTuple):
    """A certificate that was made before, as the cover of a report names it."""

    path: str
    sha256: str
    last_line: str


def read(path: str, outcome: Outcome, settings: Settings) -> Certified:
    """A certificate that was made of the same files with the same balisekit, program and settings.

    `settings` are those that change what is found, without those of the report itself. TableError is raised for any
    other file: its figures would say nothing about this check.
    """
    file, wanted = inputs.read(path), inputs_json(outcome, settings)
    with faults_of(path):
        try:
            made = json.loads(file.content)
            differ = [name for name, key in KEYS.items() if key(made[name]) != key(wanted[name])]
            text = _last_line(made, missing(outcome)) if made["format"] == FORMAT and not differ else ""
        except (ValueError, KeyError, TypeError, AttributeError, RecursionError) as error:
            raise TableError("no certificate: write one with `certify --json FILE`") from error
        if differ or not text:
            what = " and ".join(differ) or "format"
            raise TableError(f"the certificate was made with other {what}: {AGAIN}")
    return Certified(path, file.sha256, text)


def _last_line(made: Json, lacks: Sequence[str]) -> str:
    """The last line by the figures, which have to agree with the list of changes and with each other."""
    scores = {name: _scores(made[name]) for name in ("kinds", "fields")}
    whole, changes = _score(made["whole"]), made["changes"]
    of_fields = kinds_of_fields()
    agree = {
        "kinds": _counted(changes, "kind") == {name: each.answers for name, each in scores["kinds"].items()},
        "fields": _fit(_counted([each for each in changes if each["kind"] in of_fields], "field"), scores["fields"]),
        "whole": _fit({"": Counter(Answer(each["answer"]) for each in changes)}, {"": whole}),
        "not_tried": isinstance(made["not_tried"], int) and made["not_tried"] >= 0,
        "incomplete": made["incomplete"] == [*lacks],
    }
    not_seen = [name for name, each in scores["fields"].items() if each.tried and not each.found]
    kinds = sum(1 for each in scores["kinds"].values() if each.tried)
    text = line_of(whole, kinds, made["not_tried"], not_seen, lacks)
    wrong = [name for name, is_right in agree.items() if not is_right]
    wrong = wrong or ([] if made["last_line"] == text else ["last_line"])
    if wrong:
        raise TableError(f"the certificate was changed: {' and '.join(wrong)} and its other figures disagree: {AGAIN}")
    return text


def _scores(stated: Json) -> Dict[str, Score]:
    return {name: _score(each) for name, each in stated.items()}


def _score(stated: Json) -> Score:
    """The figures of a kind, a variable or of all changes. TableError is raised if they contradict each other."""
    found = Score(Counter({each: stated[_key(each)] for each in Answer if stated[_key(each)]}), stated["rules"])
    if score_json(found) != stated or any(count < 0 for count in found.answers.values()):
        raise TableError(f"the certificate was changed: figures of it contradict each other: {AGAIN}")
    return found


def _key(answer: Answer) -> str:
    return answer.value.replace(" ", "_")


def _counted(changes: Sequence[Json], key: str) -> Dict[str, Counter[Answer]]:
    """How many changes have each answer, by a key."""
    found: Dict[str, Counter[Answer]] = {}
    for each in changes:
        found.setdefault(each[key], Counter())[Answer(each["answer"])] += 1
    return found


def _fit(counted: Mapping[str, Counter[Answer]], scores: Mapping[str, Score]) -> bool:
    """Whether scores that have each change once can be those of a list that has some changes several times."""
    return counted.keys() == scores.keys() and all(
        each.answers.keys() == counted[name].keys()
        and all(count <= counted[name][answer] for answer, count in each.answers.items())
        for name, each in scores.items()
    )


def _checksum(file: Optional[Mapping[str, str]]) -> Optional[str]:
    """What identifies a file."""
    return file["sha256"] if file else None


def _values(sources: Sequence[Mapping[str, Any]]) -> Set[Tuple[str, str, Optional[str]]]:
    """The settings, wherever they are from, with the checksums of the files that they name."""
    values = [value for source in sources for value in source["values"]]
    return {(each["name"].lstrip("-"), each["value"], each["sha256"]) for each in values}


KEYS: Mapping[str, Callable[[Any], Any]] = {
    **dict.fromkeys(("table", "messages", "accepted", "program"), _checksum),
    "settings": _values,
    "balisekit": str,
}
"""What has to be the same in a certificate and in a report."""
