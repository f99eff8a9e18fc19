"""Findings on correct data: which row of that table of docs/findings.md a finding fits, by the program's JSON.

companion/tools/from_docs.py makes `findings_on_correct_data.json` of the table.
"""
from __future__ import annotations

import json
import os
from typing import Dict, Sequence

from balisekit.engine.grammar import Finding
from balisekit.etcs.geometry import passed
from balisekit.etcs.variables import Form
from balisekit.rules.statements.scene import Aspects

MADE = os.path.join(os.path.dirname(__file__), "findings_on_correct_data.json")
MISSING, SHORT = (10, 12), (11, 13)
PROFILES = (21, 27)
Forms = Sequence[Form]


def reasons() -> Dict[str, str]:
    """What the table says of each row."""
    with open(MADE, encoding="utf-8") as file:
        said: Dict[str, str] = json.load(file)
    return said


def row_of(finding: Finding, aspects: Aspects) -> str:
    """The row of the table that a finding fits, or nothing.

    A pair of duplicates that is controlled has no row here: by the table it is not accepted by a rule. Neither has a
    group in which two aspects send the same: one may have been copied for the other.
    """
    if finding.message is not None:
        return _message(finding, aspects.forms[0][0])
    return "" if aspects.are_repeated else _group(finding, aspects)


def _message(finding: Finding, form: Form) -> str:
    """F10 or F12 of a message with a packet 15 and without a profile for that direction."""
    numbers = {packet["nid_packet"] for _, packet in passed([form], finding.direction or "")}
    fits = finding.rule in MISSING and 15 in numbers and numbers.isdisjoint(PROFILES)
    return "message" if fits else ""


def _group(finding: Finding, aspects: Aspects) -> str:
    """F6, F9, F14 and F16 of default telegrams; F9 of packets 0 and 136; F10 to F13; F16 of one balise."""
    rule, balise, telegrams = finding.rule, finding.balise, aspects.forms[finding.aspect or 0]
    default = "default aspect" if len(aspects) > 1 else "default group"
    if rule == 9 and balise is not None and finding.packet is not None:
        number = telegrams[balise]["packets"][finding.packet]["nid_packet"]
        return {136: "infill", 0: "cover marker", 254: default}.get(number, "")
    if rule in (*MISSING, *SHORT):
        return _profiles(finding, telegrams)
    if rule == 16 and (finding.aspect is not None or balise is None or not _is_default(balise, aspects.forms)):
        return "one controlled balise" if aspects.is_one_controlled else ""
    if rule == 6 and len(aspects) > 1 and not _has_default(telegrams[balise or 0]):
        return ""
    return default if rule in (6, 16) or rule == 14 and aspects.has_default else ""


def _profiles(finding: Finding, telegrams: Forms) -> str:
    """F10 to F13 of what is passed with a packet 136; F10 and F12 of a stop, and of an authority without profiles."""
    packets = [packet for _, packet in passed(telegrams, finding.direction or "")]
    numbers = {packet["nid_packet"] for packet in packets}
    speeds = {packet.get("v_main") for packet in packets if packet["nid_packet"] in (12, 15)}
    if 136 in numbers:
        return "infill"
    if finding.rule in MISSING and speeds == {0}:
        return "stop aspect"
    return "earlier group" if finding.rule in MISSING and any(speeds) and numbers.isdisjoint(PROFILES) else ""


def _is_default(balise: int, aspects: Sequence[Forms]) -> bool:
    """Whether the telegram of a balise is a default telegram in an aspect."""
    return any(_has_default(forms[balise]) for forms in aspects)


def _has_default(form: Form) -> bool:
    """Whether a telegram has a packet 254. M_MCOUNT 254 alone may be a mistake."""
    return 254 in [packet["nid_packet"] for packet in form["packets"]]
