"""The table of variables, docs/assurance/trace.csv: its rows, and the layouts that they make.

docs/variables.md describes the columns. If `numbers` is `counted`, only the count of what is read is right. `links[]`
in `key` is a list: the row with this key counts its items, or the further ones if rows of the first item precede it.
"""
import csv
import hashlib
import re
from collections import namedtuple
from functools import cached_property
from itertools import accumulate, groupby
from pathlib import Path

TOP = Path(__file__).resolve().parents[2]
TABLE, RAW_TABLE = TOP / "docs/assurance/trace.csv", TOP / "docs/assurance/raw-layouts.csv"
COLUMNS = ("layouts variable bits numbers fault when key unit meaning about section doubt "
           "unstated compared date sum").split()
COUNTED = "counted"
SPAN = re.compile(r"(\d+)(?: to (\d+))?(?: ([^;]+))?")


class Row(namedtuple("Row", COLUMNS, defaults=[""] * len(COLUMNS))):
    """A row: about a variable of some layouts, or about a layout, a rule or a word."""

    kind = property(lambda self: self.layouts.partition(" ")[0])
    title = property(lambda self: ", ".join(filter(None, [self.layouts, self.variable])))
    width = cached_property(lambda self: int(self.bits or 0))

    @cached_property
    def spans(self):
        """The numbers that are read: the first and the last of each span, and its meaning."""
        found = [SPAN.fullmatch(it).groups() for it in self.numbers.split("; ") if it not in ("", COUNTED)]
        return [(int(first), int(last or first), words or "") for first, last, words in found]

    @cached_property
    def sizes(self):
        """The first number of each span and how many it has, and the sums of these up to each."""
        found = [(first, last + 1 - first) for first, last, _ in self.spans]
        return found, [*accumulate(size for _, size in found)]

    @cached_property
    def refused(self):
        """The numbers that are not read, as spans."""
        ends = [-1, *(end for span in self.spans for end in span[:2]), 2 ** self.width if self.bits else 0]
        return [(low + 1, high - 1) for low, high in zip(ends[::2], ends[1::2]) if low + 1 < high]

    @cached_property
    def keys(self):
        """Its keys in an object: two of a group's identity, none of a qualifier or a count."""
        last = self.key.rpartition("/")[2]
        return [] if last.endswith("[]") else last.split()

    @cached_property
    def condition(self):
        """The name of another variable, and those of its numbers with which this one is present."""
        name, _, numbers = self.when.partition(" ")
        return name, [int(it) for it in numbers.split(" or ") if it]

    def sealed(self):
        """The row with the sum of what a person compared, or without that note if it has changed since."""
        digest = hashlib.sha256("\n".join(self[:COLUMNS.index("unstated")]).encode()).hexdigest()[:8]
        is_same = self.compared and self.sum in ("", digest)
        return self._replace(sum=digest) if is_same else self._replace(compared="", date="", sum="")


class Part(namedtuple("Part", "key count least nodes")):
    """An object inside an object, or a list of `least` items and the others, whose row is `count`."""

    keys = property(lambda self: [self.key])
    condition = property(lambda self: ("", []) if self.count else self.nodes[0].condition)


def read_rows(table=TABLE):
    """The rows of a table."""
    _, *lines = csv.reader(table.read_text(encoding="utf-8").splitlines())
    return [Row(*it) for it in lines]


def rows_of(rows):
    """The rows about variables of each layout, by its name."""
    found = {it.layouts: [] for it in rows if not it.variable and it.kind not in ("rule", "word")}
    for row in filter(lambda it: it.variable, rows):
        kind, _, numbers = row.layouts.partition("s ")
        for name in [f"{kind} {it}" for it in numbers.split(", ")] if ", " in numbers else [row.layouts]:
            found[name].append(row)
    return found


def layouts_of(rows):
    """The rows and parts of each layout, by its name."""
    return {name: tree(own) for name, own in rows_of(rows).items()}


def tree(rows, depth=0):
    """The rows and parts of an object, in the order of the bits."""
    def part(row):
        first, *inner = row.key.split("/")[depth:]
        return first if inner or first.endswith("[]") else ""

    nodes = []
    for key, group in groupby(rows, part):
        own = list(group)
        if key:
            count = next((it for it in own if it.key.count("/") == depth), None)
            inner = tree([it for it in own if it is not count], depth + 1)
            own = [Part(key.removesuffix("[]"), count, int(own[0] is not count), inner)]
        nodes += own
    return nodes
