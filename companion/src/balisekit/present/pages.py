"""Templates: the one place that imports jinja2."""
from __future__ import annotations

import base64
import hashlib
import json
from functools import lru_cache
from itertools import groupby
from pathlib import Path
from typing import Any, Callable, Iterator, List, Sequence, Tuple

from balisekit.drawing.svg import svg
from balisekit.errors import needed
from balisekit.tables.names import clean

PIECES = 100
"""How many pieces of a page are joined into one."""
TEMPLATES = Path(__file__).with_name("templates")


def pieces(template: str, styles: Sequence[str] = (), script: str = "", **values: Any) -> Iterator[str]:
    """The page in pieces: it is never complete in memory.

    Everything is escaped except its style sheets, its script, and what a template calls safe.
    """
    with needed("jinja2", "a picture or a page"):
        import jinja2
        from markupsafe import Markup

        environment = _environment(jinja2)
    own = {"style": "".join(map(_read, styles)), "script": _read(script) if script else ""}
    hashes = {f"{name}_hash": _hash(text) for name, text in own.items()}
    texts = {name: Markup(text) for name, text in own.items()}
    page = environment.get_template(template).stream(**texts, **hashes, **values)
    page.enable_buffering(PIECES)
    yield from page


def _read(name: str) -> str:
    return (TEMPLATES / name).read_text("utf-8")


@lru_cache(maxsize=None)
def _environment(jinja2: Any) -> Any:
    """The templates. Each is compiled once, since a folder may have thousands of pictures."""
    from markupsafe import Markup

    environment = jinja2.Environment(
        loader=jinja2.FileSystemLoader(str(TEMPLATES)),
        autoescape=True,
        undefined=jinja2.StrictUndefined,
        trim_blocks=True,
        lstrip_blocks=True,
    )
    environment.filters.update(svg=lambda shapes: Markup(svg(shapes)), clean=clean)
    return environment


def macro(template: str, name: str) -> Callable[..., str]:
    """A macro of a template."""
    with needed("jinja2", "a picture or a page"):
        import jinja2

        environment = _environment(jinja2)
    made: Callable[..., str] = getattr(environment.get_template(template).module, name)
    return made


def _hash(text: str) -> str:
    """The checksum by which a page's policy allows its style sheet or its script."""
    return "sha256-" + base64.b64encode(hashlib.sha256(text.encode("utf-8")).digest()).decode()


def premises() -> List[Tuple[bool, List[str]]]:
    """What a yes means, rests on and does not cover: paragraphs in blocks, and whether each block is a list."""
    paragraphs: List[str] = json.loads(_read("premises.json"))
    parts = groupby(paragraphs, lambda paragraph: paragraph.startswith("- "))
    return [(is_list, [paragraph[2 * is_list :] for paragraph in block]) for is_list, block in parts]
