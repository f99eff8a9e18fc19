"""The lines that the program writes, as regular expressions, and what each line contains.

schemas/report-grammar.txt has the same lines. A line has a name and an expression, in which {NAME} is replaced by the
expression of that name. An expression is matched against a complete line, without its line end.
"""
from __future__ import annotations

import re
from functools import lru_cache
from typing import Any, Dict, List, NamedTuple, Optional, Pattern, Tuple

from balisekit.expressions import expression

GRAMMAR = r"""
number          0|[1-9][0-9]*
count           [1-9][0-9]*
place           at (?P<at>{number}) end (?P<end>{number})
path            /|(?:/(?:[a-z_]+|{number}))+
telegram        not hexadecimal|wrong size|pad bits set|{telegram fault}
telegram fault  (?P<why>short|spare|length|no end|version|loop|down-link) {place}
message fault   (?P<why>short|spare|length|message kind|no authority|no report) {place}
form            form (?P<why>missing key|unknown key|kind|range) at (?P<path>{path})
document form   form (?P<why>missing key|unknown key|kind) at (?P<path>{path})
line            line (?P<line>{count})
group           group (?P<group>{number})
aspect          {group}(?: aspect (?P<aspect>{number}))?
balise          {aspect} balise (?P<balise>[0-7])
message         message (?P<message>{number})
packet          (?:{balise}|{message}) packet (?P<packet>{number})
direction       (?P<direction>nominal|reverse)

verdict         yes: groups (?P<groups>{number}), messages (?P<messages>{number})
verdict         no: findings (?P<findings>{count})

finding         F1 {balise}: position wrong
finding         F2 {balise}: total wrong
finding         F3 {balise}: version, identity or link flag differs
finding         F4 {balise}: mark points outside
finding         F5 {balise}: mark not answered
finding         F6 {balise}: counter 254
finding         F7 {balise}: counters differ
finding         F8 {balise} {direction}: packets of duplicates differ
finding         F9 {packet}: packet not modelled
finding         F10 (?:{aspect}|{message}) {direction}: no gradient
finding         F11 {packet} {direction}: gradient short
finding         F12 (?:{aspect}|{message}) {direction}: no speed profile
finding         F13 {packet} {direction}: speed profile short
finding         F14 {group}: identity used before
finding         F15 {balise}: marks differ between aspects
finding         F16 {balise}: aspects not told apart

words           refused: (?P<text>usage is balisecheck check, decode \[--radio\] or encode \[--radio\])
decode          refused: {line}: (?P<text>{telegram})
decode --radio  refused: {line}: (?P<text>not hexadecimal)
decode --radio  refused: {message}: (?P<text>length below 3|cut off|{message fault})
encode          refused: {line}: (?P<text>not JSON|too big|{form})
encode --radio  refused: {line}: (?P<text>not JSON|too big|{form})
check           refused: (?P<text>not JSON|{document form})
check           refused: {group}: (?P<text>count|aspects)
check           refused: {balise}: (?P<text>{telegram})
check           refused: {message}: (?P<text>not hexadecimal|{message fault})
"""


LONG = expression("[0-9]{19}")
BEGIN = expression("F([0-9]{1,2}) ")
"""The beginning of a finding. Its rule determines the expression."""
LINES: List[Tuple[str, str]] = re.findall(r"^(.+?) {2,}(.+)$", GRAMMAR, re.MULTILINE)
"""Each name with its expression."""
PARTS = dict(LINES)
NAMES: Dict[int, str] = {
    int(expression[1:].split(" ")[0]): expression.rsplit(": ", 1)[1] for name, expression in LINES if name == "finding"
}
"""The names of findings by their rules."""


@lru_cache(maxsize=None)
def expressions(name: str, begin: str = "") -> Tuple[Pattern[str], ...]:
    """The expressions with this beginning of a name: `verdict`, `finding`, or the command that refuses."""

    def put_in(expression: str) -> str:
        return re.sub(r"\{([a-z ]+)\}", lambda match: f"(?:{put_in(PARTS[match[1]])})", expression)

    found = (expression for key, expression in LINES if key == name and expression.startswith(begin))
    return tuple(re.compile(put_in(expression)) for expression in found)


class Verdict(NamedTuple):
    """The first line of a report."""

    line: str
    groups: Optional[int] = None
    """The number of groups that were checked, if the answer is yes. Otherwise None."""
    messages: Optional[int] = None
    findings: int = 0

    @property
    def yes(self) -> bool:
        """Whether the program has answered yes."""
        return self.groups is not None


class Finding(NamedTuple):
    """One line of a report. Numbers that it does not name are None."""

    line: str
    rule: int
    name: str
    group: Optional[int] = None
    message: Optional[int] = None
    aspect: Optional[int] = None
    balise: Optional[int] = None
    packet: Optional[int] = None
    direction: Optional[str] = None


class Refusal(NamedTuple):
    """A line that begins with `refused: `. What it does not name is None."""

    text: str
    """The words after the place: `spare at 15 end 17`."""
    line: str = ""
    """The program's whole line."""
    why: Optional[str] = None
    at: Optional[int] = None
    end: Optional[int] = None
    path: Optional[str] = None
    number: Optional[int] = None
    """The number of the input's line, counted from 1 in the run that refused it."""
    group: Optional[int] = None
    aspect: Optional[int] = None
    balise: Optional[int] = None
    message: Optional[int] = None


def _parts(name: str, line: str, begin: str = "") -> Optional[Dict[str, Any]]:
    """The parts of a line of this name, or None if it is no such line. No number has more than 18 digits."""
    matches = (expression.fullmatch(line) for expression in expressions(name, begin))
    match = None if LONG.search(line) else next(filter(None, matches), None)
    if match is None:
        return None
    return {key: int(text) if text.isdigit() else text for key, text in match.groupdict().items() if text is not None}


def verdict(line: str) -> Optional[Verdict]:
    """The first line of a report, or None if the line is none."""
    parts = _parts("verdict", line)
    return None if parts is None else Verdict(line, **parts)


def finding(line: str) -> Optional[Finding]:
    """The finding of a line, or None if it is none."""
    begin = BEGIN.match(line)
    parts = _parts("finding", line, begin[0]) if begin else None
    if begin is None or parts is None:
        return None
    rule = int(begin[1])
    return Finding(line, rule, NAMES[rule], **parts)


def refusal(command: str, line: str) -> Optional[Refusal]:
    """The refusal that a command has written in a line, or None if it is none of this command."""
    parts = _parts(command, line)
    return None if parts is None else Refusal(line=line, number=parts.pop("line", None), **parts)
