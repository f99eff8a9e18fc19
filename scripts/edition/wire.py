"""The layouts of the reading edition, parsed: for each header, packet and message its fields in the order of the bits.

A definition of crates/etcs_edition/specs has a line for each variable, whose name is in the comment at its end. A field
is `any_number WIDTH NUMBER`, `up_to WIDTH LAST NUMBER`, `allowed_if WIDTH NUMBER CONDITION` or `bit TRUTH`; other terms
are applied definitions. Whatever else occurs is an error, so that nothing is skipped.
"""
from __future__ import annotations

import functools
import re
from pathlib import Path
from typing import Dict, Iterable, Iterator, List, Mapping, NamedTuple, Optional, Sequence, Tuple

from edition.definitions import TOP, definitions

SPECS = TOP / "crates/etcs_edition/specs"
FILES = ("Variables", "TrackPackets", "TrainPackets", "Telegram", "Message")
NAME = re.compile(r"\b[A-Z]+_[A-Z]\w*(?: or [A-Z]+_[A-Z]\w*)?")
TERMS = re.compile(r"\((?:[^()]|\([^()]*\))*\)|[^\s()]+")
Span = Tuple[int, int]
"""The first and the last of consecutive numbers."""
Condition = Tuple[str, Tuple[int, ...]]


class Line(NamedTuple):
    """A line of a definition: its terms, the variables that its comment names, and where it is."""

    terms: List[List[str]]
    names: List[str]
    place: Tuple[Path, int]


class Field(NamedTuple):
    """A variable: `numbers` are those that are allowed, and `counted` how many bits a length counts before a body. With
    a condition it is only there after one of these numbers of another variable."""

    variable: str
    width: int
    numbers: List[Span]
    counted: Optional[int]
    when: Optional[Condition]
    term: str
    place: Tuple[Path, int]

    @property
    def only(self) -> Optional[int]:
        """The one number that is allowed, if there is only one."""
        return self.numbers[0][0] if [it[:1] * 2 for it in self.numbers] == self.numbers[:1] else None


def terms_of(text: str) -> List[List[str]]:
    """The terms of a line, between `∷` and `++`, each as its words. The parenthesis around what a packet contains is
    opened in the line of its number and closed in its last line."""
    text = re.sub(r"\($", "", text.strip())
    text = text[:-1] if text.count(")") > text.count("(") else text
    found: List[List[str]] = [[]]
    for word in TERMS.findall(text):
        if word in ("∷", "++"):
            found.append([])
        else:
            found[-1].append(word)
    return [words for words in found if words and words != ["[]"]]


def lines_of(text: str, place: Tuple[Path, int]) -> Iterator[Line]:
    """The lines of an equation's right side."""
    for count, line in enumerate(text.split("\n")):
        code, _, comment = line.partition("  -- ")
        if terms_of(code):
            yield Line(terms_of(code), NAME.findall(comment), (place[0], place[1] + count))


@functools.lru_cache(None)
def equations() -> Mapping[str, Dict[str, List[Line]]]:
    """The equations of each definition of the wire: their left sides, and the lines of their right sides."""
    found: Dict[str, Dict[str, List[Line]]] = {}
    for it in definitions().values():
        if it.path.parent == SPECS and it.path.stem in FILES and re.match(r".* (?:List )?Field\n", it.text):
            rows = it.path.read_text("utf-8").split("\n")[it.line - 1 : it.line - 1 + it.lines]
            own = found.setdefault(it.name, {})
            for count, row in enumerate(rows):
                left, equals, right = row.partition(" =")
                if row.startswith(it.name + " ") and equals:
                    rest = [right] + [other for other in rows[count + 1 :]]
                    length = next((at for at, other in enumerate(rest) if at and not other.startswith(" ")), len(rest))
                    own[left] = [*lines_of("\n".join(rest[:length]), (it.path, it.line + count))]
    return found


def spans(numbers: Iterable[int]) -> List[Span]:
    """The numbers as spans."""
    found: List[Span] = []
    for number in sorted({*numbers}):
        starts = not found or found[-1][1] + 1 < number
        found[-1:] = [*found[-1:], (number, number)] if starts else [(found[-1][0], number)]
    return found


def numbers_of(width: int, words: Sequence[str]) -> List[Span]:
    """The numbers for which a condition holds, such as `nat_le v 120 || (v == 127)`."""
    every = range(2**width)
    found = set()
    for part in words[0].strip("()").split("||"):
        part = part.strip(" ()")
        low, last, same = (re.fullmatch(it, part) for it in (r"nat_le (\d+) \w+", r"nat_le \w+ (\d+)", r"\w+ == (\d+)"))
        assert low or last or same, part
        found.update(range(int(low[1]), len(every)) if low else range(int(last[1]) + 1) if last else [int(same[1])])
    return spans(found & {*every})


def field(words: Sequence[str], name: str, place: Tuple[Path, int]) -> Field:
    """A field, as a term states it."""
    kind, *rest = words
    width = 1 if kind == "bit" else int(rest[0])
    numbers, counted = [(0, 2**width - 1)], None
    if kind == "up_to":
        numbers = [(0, int(rest[1]))]
    elif kind == "allowed_if":
        numbers = numbers_of(width, rest[2:])
    elif kind == "any_number" and rest[1].isdigit():
        numbers = [(int(rest[1]),) * 2]
    elif kind == "any_number" and (rest[1] == "bytes" or "bit_count" in rest[1]):
        counted = int((re.findall(r"\((\d+) \+ bit_count", rest[1]) or ["0"])[0])
    return Field(name, width, numbers, counted, None, " ".join(words), place)


def of_cases(name: str, names: Sequence[str], line: Line) -> List[Field]:
    """The fields of a definition whose lines name no variables. It has a case for each number of the first one, and
    further ones that only some cases have; or it has one case, of fields that can be one variable together."""
    cases = [[field(words, "", line.place) for it in own for words in it.terms] for own in equations()[name].values()]
    if len(cases) == 1 and len(names) == 1 < len(cases[0]):
        width = sum(it.width for it in cases[0])
        return [Field(names[0], width, [(0, 2**width - 1)], None, None, " ".join(line.terms[0]), line.place)]
    found = []
    assert len(names) == max(map(len, cases)), (name, names)
    for at, variable in enumerate(names):
        own = [case for case in cases if at < len(case)]
        numbers = spans(it for case in own for low, high in case[at].numbers for it in range(low, high + 1))
        when = (names[0], tuple(it.numbers[0][0] for it, *_ in own)) if len(own) < len(cases) else None
        found.append(own[0][at]._replace(variable=variable, numbers=numbers, when=when, term=" ".join(line.terms[0])))
    return found


class Layout:
    """What makes the fields of one equation: parts that were listed, and what its parameters mean."""

    def __init__(self) -> None:
        self.listed: List[str] = []
        self.meant: Dict[str, str] = {}

    def of_lines(self, own: Sequence[Line]) -> Iterator[Field]:
        """The fields of lines."""
        for line in own:
            names = [*line.names]
            for words in line.terms:
                yield from self.of_term([self.meant.get(it, it) for it in words], names, line)

    def of_part(self, part: str, names: List[str], line: Line) -> Iterator[Field]:
        """The fields of a definition, or of a function that is written out."""
        written = re.fullmatch(r"\(λ \w+\. (.*)\)", part)
        if written:
            yield from self.of_lines([Line(terms_of(written[1]), names, line.place)])
        elif any(it.names for own in equations()[part].values() for it in own):
            (own,) = equations()[part].values()
            yield from self.of_lines(own)
        else:
            yield from of_cases(part, names, line)

    def of_term(self, words: List[str], names: List[str], line: Line) -> Iterator[Field]:
        """The fields of a term. It takes the names of its own variables from those of the line."""
        kind, *rest = words
        if kind in ("any_number", "up_to", "allowed_if", "bit"):
            yield field(words, names.pop(0), line.place)
        elif kind == "qualified":
            first = field(["bit", rest[1]], names.pop(0), line.place)._replace(term=" ".join(words))
            yield first
            for it in self.of_part(rest[0], names, line):
                yield it if it.when else it._replace(when=(first.variable, (1,)))
        elif kind == "iterated":
            yield field(["any_number", "5", "length"], names.pop(0), line.place)._replace(term=" ".join(words))
            yield from () if rest[0] in self.listed else self.of_part(rest[0], names, line)
        elif kind in ("packet_to_train", "packet_to_track"):
            yield from self.of_packet(kind, rest, line)
        elif kind == "raw_fields":
            yield Field("body", 0, [], None, None, " ".join(words), line.place)
        elif kind == "profile_fields":
            self.meant["element"] = rest[0]
            yield from self.of_part(kind, [], line)
        elif kind not in ("flat_map", "body"):
            self.listed.append(kind)
            yield from self.of_part(kind, names, line)

    def of_packet(self, kind: str, rest: List[str], line: Line) -> Iterator[Field]:
        """The fields of a packet: its head, and what it contains if this is in the same term."""
        self.meant["n"] = rest[0]
        yield from self.of_part(kind, [], line)
        for part in rest[1:]:
            if part.startswith("("):
                yield from self.of_term(TERMS.findall(part[1:-1]), [], line)


def sections(text: str) -> List[str]:
    """The sections of the standard that a comment cites."""
    return re.findall(r"\b[3-8]\.\d+(?:\.\d+)*", text)


@functools.lru_cache(None)
def cited(layout: str) -> Tuple[List[str], List[str]]:
    """The sections that comments cite for a layout by its name, and those that the head of the file cites for all."""
    kind, _, number = layout.rpartition(" ")
    file = {"message": "Message", "packet": "TrackPackets", "train packet": "TrainPackets"}.get(kind, "Telegram")
    text = (SPECS / f"{'Telegram' if layout == 'packet 255' else file}.antt").read_text("utf-8")
    head, _, rest = text.partition("\nuse ")
    comments = " ".join(re.findall(r"(?m)^ *-- (.*)$", rest))
    # A packet is cited in a sentence or heading, up to its first parenthesis; others right behind their names.
    noun = rf"[Pp]ackets? (?:\d+ and )?{number}\b(?: and \d+)?(?:, [^(.]*| has [^(.]*| )"
    own = re.findall(rf"\b{noun if kind.endswith('packet') else f'{layout} '}\(([^)]*)", comments)
    return sections(" ".join(own)), sections(head)


@functools.lru_cache(None)
def layouts() -> Mapping[str, List[Field]]:
    """The fields of each layout, by its name in the table of variables."""
    found = {"header": [*Layout().of_lines(equations()["header_fields"]["header_fields h"])]}
    for function, kind in (("track_packet_fields", "packet"), ("authority_fields", "packet"), ("message_fields", ""),
                           ("train_packet_fields", "train packet"), ("report_fields", "train packet")):
        for own in equations()[function].values():
            if own[0].terms[0][0] not in ("authority_fields", "report_fields"):
                fields = [*Layout().of_lines(own)]
                number = "other" if fields[0].only is None else str(fields[0].only)
                name = f"{kind or 'message'} {number}"
                assert name not in found, name
                found[name] = fields
    return found
