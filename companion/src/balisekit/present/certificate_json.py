"""A certificate as JSON, for other tools and for the cover of a report, which reads it again."""
from __future__ import annotations

from typing import Any, Dict, Mapping

from balisekit import __version__
from balisekit.certificate.certificate import Certificate, Score
from balisekit.certificate.judging import Answer
from balisekit.present.certificate_text import last_line
from balisekit.present.opening import paths_from, program_json, settings_json
from balisekit.present.outcome_text import about_inputs, missing
from balisekit.rules.families import Outcome
from balisekit.tables.settings import Settings

FORMAT = 1


def as_json(made: Certificate) -> Dict[str, Any]:
    """All of a certificate: the scores, and each change with what the check says of it."""
    return {
        "format": FORMAT,
        "last_line": last_line(made),
        "incomplete": missing(made.outcome),
        **inputs_json(made.outcome, made.outcome.checked.settings),
        "notes": about_inputs(made.outcome, paths_from(made.outcome.checked)),
        "per_kind": made.per_kind,
        "seed": made.seed,
        "not_tried": made.not_tried,
        "whole": score_json(made.whole),
        "kinds": _scores(made.by_kind()),
        "fields": _scores(made.by_field()),
        "changes": [
            {
                "kind": trial.mistake.name,
                "change": trial.change.words,
                "field": trial.change.field or None,
                "rows": sorted(place for place in trial.change.rows if place > 0),
                "messages": sorted(-place for place in trial.change.rows if place < 0),
                "answer": judgement.answer.value,
                "rules": list(judgement.rules),
                "sentence": judgement.sentence or None,
            }
            for trial, judgement in made.judged
        ],
    }


def inputs_json(outcome: Outcome, settings: Settings) -> Dict[str, Any]:
    """The version of balisekit, the program, the files and the settings."""
    checked, judged = outcome.checked, outcome.judged
    shown, entries = paths_from(checked), judged.entries if judged else None
    files: Dict[str, Any] = {"table": checked.table, "messages": checked.messages, "accepted": entries}
    return {
        "balisekit": __version__,
        "program": program_json(checked.program),
        **{name: {"path": shown(file.path), "sha256": file.sha256} if file else None for name, file in files.items()},
        "settings": settings_json(settings, shown),
    }


def _scores(scores: Mapping[str, Score]) -> Dict[str, Any]:
    return {name: score_json(each) for name, each in scores.items()}


def score_json(score: Score) -> Dict[str, Any]:
    """The figures of a kind or a variable."""
    answers = {each.value.replace(" ", "_"): score.answers.get(each, 0) for each in Answer}
    return {"tried": score.tried, **answers, "share": score.share, "rules": list(score.rules)}
