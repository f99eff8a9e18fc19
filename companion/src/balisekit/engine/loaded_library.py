"""The library for C in the place of the program: it answers in this process, and no other one is started.

Its commands run the same proved code. The answer of `check` is read as data (schemas/findings.json), not as text.
"""
from __future__ import annotations

import json
from collections.abc import Callable, Iterable, Iterator, Mapping, Sequence
from dataclasses import dataclass
from os import uname
from resource import RLIM_INFINITY, RLIMIT_STACK, getrlimit
from threading import stack_size
from typing import Any, ClassVar, Dict, Optional, Pattern, Union

from balisekit.engine import find_program
from balisekit.engine.grammar import Finding, Refusal, Verdict
from balisekit.engine.library import Library, opened
from balisekit.engine.program import PART, Answer, Done, Program, Report, Span, answers, pieces

STACK = 2 << 20
"""The least stack for calls: they need 512 kB, and so does balisekit below them."""
PROCESSOR = {"cx16", "lahf_lm", "popcnt", "sse4_1", "sse4_2", "ssse3"}
"""What x86-64-v2 has, in the words of /proc/cpuinfo. The loader looks at it for a program, and not for a library."""
PLACES = ("group", "message", "aspect", "balise", "packet")


@dataclass(frozen=True)
class LoadedLibrary(Program):
    """The library that was stored with the program. It answers as the program does."""

    kind: ClassVar[str] = "library"

    @classmethod
    def stored(cls) -> Optional[LoadedLibrary]:
        """The library of this balisekit. None if it is absent, of another version, or cannot be used here."""
        stored = find_program.current_library()
        library = opened(stored.path) if stored and _is_able() else None
        if stored is None or library is None or library.version != stored.about.get("version"):
            return None
        return cls(stored.path, stored.sha256, stored.about, None, find_program.ABOUT)

    @property
    def _library(self) -> Library:
        return Library.find(self.path)

    def check(self, document: Union[str, bytes, Mapping[str, Any], Iterable[str]]) -> Union[Report, Refusal]:
        """What `check` reports of a document of a line: an object, its JSON, or the pieces of its JSON."""
        call = self._library.findings(b"".join(pieces(document)))
        return answer(call.text)

    def _matches(self, expression: Callable[[], Pattern[str]]) -> Callable[[str], object]:
        """Each line that it writes is a record: by its checksum it is the library that this version knows."""
        return bool

    def _answers(self, words: Sequence[str], lines: Sequence[bytes]) -> Iterator[Answer]:
        """What the command writes for each of these lines. A call reads a few of them, so that its text is short.

        The number in a refusal counts the lines after the one that was refused before it, as in a run of the program.
        """
        done = begin = 0
        while done < len(lines):
            part = lines[done : done + PART]
            call = self._library.call(words, b"".join(part))
            read = list(call.lines()) if call.status == 0 else ()
            if len(read) == len(part):  # (none of them is a refusal, so nothing is to be counted)
                yield from read
                done += len(part)
                continue
            for each in answers(call, " ".join(words), len(part)):
                done += 1
                if isinstance(each, Refusal):
                    number, begin = done - begin, done
                    each = each._replace(number=number, line=f"refused: line {number}: {each.text}")
                yield each

    def _in_parts(self, work: Callable[[Program, Span], Iterator[Done]], starts: Sequence[int]) -> Iterator[Done]:
        for start in starts:
            yield from work(self, (start, start + PART))


def _is_able() -> bool:
    """Whether the processor and the stack serve for calls: otherwise they would end this process."""
    soft = getrlimit(RLIMIT_STACK)[0]
    if soft != RLIM_INFINITY and soft < STACK or 0 < stack_size() < STACK:
        return False
    if uname().machine == "aarch64":  # (the library for it needs nothing that some of these processors lack)
        return True
    try:
        with open("/proc/cpuinfo", "rb", buffering=0) as file:
            words = file.read(1 << 13).decode("ascii", "replace").split()
    except OSError:
        return False
    return PROCESSOR.issubset(words)


def answer(text: str) -> Union[Report, Refusal]:
    """The report or the refusal of a text of `balisecheck_findings`, with the lines that `check` writes."""
    form = json.loads(text, object_hook=_read)
    if form["verdict"] == "refused":
        return _refusal(form)
    groups, messages, findings = form["groups"], form["messages"], tuple(form["findings"])
    if form["verdict"] == "yes":
        return Report(Verdict(f"yes: groups {groups}, messages {messages}", groups, messages), ())
    return Report(Verdict(f"no: findings {len(findings)}", findings=len(findings)), findings)


def _read(members: Dict[str, Any]) -> Any:
    """A finding from its object. (Read at once, the objects of many findings are never all in memory.)"""
    if "rule" not in members:
        return members
    rule, name = members.pop("rule"), members.pop("name")
    direction = f" {members['direction']}" if "direction" in members else ""
    return Finding(f"{rule} {_place(members)}{direction}: {name}", int(rule[1:]), name, **members)


def _place(members: Mapping[str, Any]) -> str:
    """What a finding or refusal is about, in the words of the program."""
    return " ".join([f"{key} {members[key]}" for key in PLACES if key in members])


def _refusal(members: Dict[str, Any]) -> Refusal:
    del members["verdict"]
    reason, path = members.pop("reason"), members.pop("path", None)
    place = _place(members)
    if path is not None:
        members["path"] = "/" + "/".join(map(str, path))
        text = f"form {reason} at {members['path']}"
    else:
        text = f"{reason} at {members['at']} end {members['end']}" if "at" in members else reason
    line = ": ".join(filter(None, ("refused", place, text)))
    return Refusal(text, line, reason if text != reason else None, **members)
