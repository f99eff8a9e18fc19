#!/usr/bin/env python3
"""How easily pages can be read, by the lengths of their sentences: for people who write pages.

    scripts/readability.py [PAGE ..]

It prints for each page, and for each rule, the number of sentences, the share of those with fewer than five words, the
share of those with more than 28, and the median number of words. Without a page it looks at all pages of the
repository. Tables, code, quotes and headings are no sentences, nor is what ends without a full stop. A code span or
quote is one word.
"""
from __future__ import annotations

import re
import statistics
import subprocess
import sys
from functools import lru_cache
from pathlib import Path
from typing import Dict, FrozenSet, Iterator, List, NamedTuple, Sequence, Set

TOP = Path(__file__).resolve().parents[1]
SHORT, LONG = 5, 28
"""A sentence with fewer words is short, and one with more words is long."""
MOST_SHORT, MOST_LONG = 0.10, 0.03
"""The greatest shares of short and of long sentences."""
FENCED = re.compile(r"(?ms)^ *```.*?^ *```$")
END = re.compile(r"(?<=[.!?])(?<!e\.g\.)(?<!i\.e\.)[*)\"]*\s+(?=[A-Z`\"*(\d\[])")
RUN_IN = re.compile(r"^(?:[-*] |\d+\. )?(?:\*\*[^*]{1,40}[.:,]?\*\*:?(?:\s+|$))?")
"""The mark of an item, and a heading in bold letters before its text or instead of it."""


DICTIONARIES = [Path("/usr/share/dict", name) for name in ("american-english", "british-english")]
"""Those of the packages wamerican and wbritish."""
WORD = re.compile(r"(?<![\w./-])[^\W\d_]{2,}(?:['’-][^\W\d_]+)*(?![\w/]|\.\w)")


class Shares(NamedTuple):
    """The sentences of a page, and which shares of them are short and long."""

    sentences: Sequence[str]

    def _share(self, lengths: range) -> float:
        return sum(words(each) in lengths for each in self.sentences) / max(len(self.sentences), 1)

    @property
    def short(self) -> float:
        """The share of sentences with few words."""
        return self._share(range(SHORT))

    @property
    def long(self) -> float:
        """The share of sentences with many words."""
        return self._share(range(LONG + 1, 1000))

    @property
    def median(self) -> float:
        """The median number of words."""
        return statistics.median(map(words, self.sentences)) if self.sentences else 0

    @property
    def is_readable(self) -> bool:
        """Whether neither share is too great."""
        return self.short <= MOST_SHORT and self.long <= MOST_LONG


def words(sentence: str) -> int:
    """How many words it has. A code span is one word."""
    return len([each for each in sentence.split() if re.search(r"\w", each)])


def plain(text: str) -> str:
    """A text without comments, quoted blocks, code, targets of links, and marks such as `@SIGNED@` of templates."""
    text = re.sub(r"(?ms)<!--.*?-->|^>.*?$|^@[A-Z]+@", "", FENCED.sub("", text))
    text = re.sub(r"!?\[([^]]*)\]\([^)]*\)", r"\1", re.sub(r"`[^`]*`", "`code`", text))
    return re.sub(r'"[^"\n]*"|“[^”\n]*”', '"quote"', text)


def of_page(text: str) -> Shares:
    """The sentences of a page in Markdown."""
    text = "\n".join(line for line in plain(text).split("\n") if not re.match(r" *(\||#)", line))
    parts = (" ".join(part.split()) for part in re.split(r"\n\s*\n|\n(?= *(?:[-*]|\d+\.) )", text))
    return of_paragraphs(RUN_IN.sub("", part) for part in parts)


def of_paragraphs(paragraphs: Iterator[str]) -> Shares:
    """The sentences of paragraphs."""
    return Shares([each for part in paragraphs for each in END.split(part) if re.search(r"[.!?:][*)\"]*$", each)])


def of_rules() -> Dict[str, Shares]:
    """The sentences of the page of each rule of balisekit, by the rule's name."""
    return {name: of_paragraphs(map(plain, parts)) for name, parts in paragraphs_of_rules().items()}


def paragraphs_of_rules() -> Dict[str, List[str]]:
    """The paragraphs and items of the page of each rule of balisekit, by the rule's name."""
    sys.path.insert(0, str(TOP / "companion" / "src"))
    from balisekit.present.explanations import pages
    from balisekit.rules.families import FAMILIES

    every = [one for family in FAMILIES.values() for one in pages(family)]
    return {name: [part for text in page.parts.values() for part in text.split("\n")] for name, page in every}


@lru_cache(maxsize=None)
def known() -> FrozenSet[str]:
    """The words of the dictionaries, and in small letters what the glossary explains: before its colons, or in bold."""
    listed = {word for path in DICTIONARIES for word in path.read_text("utf-8").split()}
    glossary = (TOP / "docs" / "glossary.md").read_text("utf-8")
    heads = [*re.findall(r"(?m)^- (\*\*.*?): ", glossary), *re.findall(r"\*\*(.+?)\*\*", glossary)]
    return frozenset({*listed, *re.findall(r"[^\W\d_]+", " ".join(heads).lower())})


def unknown(text: str) -> Set[str]:
    """The words of a text that neither a dictionary nor the glossary has. Code and words in capitals do not count."""
    parts = {part for word in WORD.findall(plain(text)) for part in word.split("-")}
    return {part for part in parts if not _is_known(re.sub(r"['’]s?$", "", part))}


def _is_known(word: str) -> bool:
    """Whether a word is explained, in one of its forms. Names of the standard are in capitals."""
    small = word.lower()
    return len(word) < 2 or word.rstrip("s").isupper() or not known().isdisjoint({word, small, small.rstrip("s")})


def names() -> List[str]:
    """The pages of the repository."""
    listed = subprocess.run(["git", "ls-files", "*.md"], cwd=TOP, stdout=subprocess.PIPE, text=True, check=True)
    return listed.stdout.split()


def main(arguments: Sequence[str]) -> None:
    """Prints the shares of pages and rules."""
    found = {name: of_page(Path(TOP, name).read_text("utf-8")) for name in arguments or names()}
    found.update({} if arguments else of_rules())
    print("sentences   short    long  median")
    for name, shares in found.items():
        mark = "" if shares.is_readable else "  to do"
        shown = f"{len(shares.sentences):9}  {shares.short:6.1%}  {shares.long:6.1%}  {shares.median:6.0f}"
        print(f"{shown}  {name}{mark}")


if __name__ == "__main__":
    main(sys.argv[1:])
