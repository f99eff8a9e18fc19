"""Makes docs/mistakes.md, the page of all kinds of mistakes: `python3 companion/tests/mistakes_page.py`."""
from __future__ import annotations

import sys
from pathlib import Path
from typing import Iterator

HERE = Path(__file__).resolve().parent
sys.path.insert(0, str(HERE.parent / "src"))

from balisekit.mistakes import FOLDERS, catalogue  # noqa: E402  (the path comes first)
from balisekit.mistakes.mistake import Mistake  # noqa: E402

PAGE = HERE.parents[1] / "docs" / "mistakes.md"
HEADINGS = {
    "fields": "In one variable",
    "packets": "With packets",
    "telegrams": "With telegrams, aspects and groups",
    "messages": "With radio messages",
    "tables": "In the table",
}
OPENING = f"""# Kinds of mistakes

For whoever reads a [certificate](certificate.md), and wants to know what was tried. `balisekit certify` makes these \
{len(catalogue())} kinds of mistakes. Each of them comes from practice as we imagine it: nobody has counted how often \
it happens.
"""


def page() -> str:
    """The whole page."""
    return OPENING + "".join(part for folder in FOLDERS for part in _section(folder))


def _section(folder: str) -> Iterator[str]:
    """A heading, and the kinds below it."""
    yield f"\n## {HEADINGS[folder]}\n"
    yield from (_entry(mistake) for mistake in catalogue() if mistake.folder == folder)


def _entry(mistake: Mistake) -> str:
    """A kind with its paragraphs."""
    parts = "".join(f"- **{head}.** {text}\n" for head, text in mistake.parts.items())
    return f"\n### {mistake.name[0].upper()}{mistake.name[1:]}\n\n{mistake.title}.\n\n{parts}"


if __name__ == "__main__":
    PAGE.write_text(page(), "utf-8")
