"""Which folder of the package may import which: present never imports cli, and tables never imports rules."""

from __future__ import annotations

import ast
from functools import lru_cache
from pathlib import Path
from typing import Iterator, List, Tuple

import pytest

pytestmark = pytest.mark.uncovered
PACKAGE = Path(__file__).resolve().parents[1] / "src" / "balisekit"
BELOW = {
    "io": (),
    "tables": ("io",),
    "etcs": ("engine", "tables"),
    "engine": (),
    "design": ("tables",),
    "rules": ("design", "engine", "etcs", "io", "tables"),
    "compare": ("engine", "etcs", "rules", "tables"),
    "mistakes": ("engine", "etcs", "rules", "tables"),
    "certificate": ("engine", "io", "mistakes", "rules", "tables"),
    "drawing": ("engine", "etcs", "rules", "tables"),
    "present": ("certificate", "compare", "drawing", "engine", "etcs", "io", "rules", "tables"),
    "cli": ("certificate", "compare", "drawing", "engine", "etcs", "io", "present", "rules", "tables"),
}
"""The folders that each folder may import. All may import the modules of COMMON, and themselves."""
COMMON = ("errors", "expressions", "__version__")


def imports(path: Path) -> Iterator[str]:
    """The modules of balisekit that a module imports."""
    for node in ast.walk(ast.parse(path.read_text("utf-8"))):
        names = [alias.name for alias in node.names] if isinstance(node, ast.Import) else []
        if isinstance(node, ast.ImportFrom):
            assert node.level == 0, f"{path}: imports are written in full"
            whole = node.module == "balisekit"
            names = [f"balisekit.{alias.name}" for alias in node.names] if whole else [node.module or ""]
        yield from (name for name in names if name.split(".")[0] == "balisekit")


@lru_cache(maxsize=None)
def edges() -> List[Tuple[str, str, Path]]:
    """Each import from a folder to another one, or to a module outside of the folders."""
    paths = [path for path in sorted(PACKAGE.rglob("*.py")) if path.parent != PACKAGE]
    found = [(path.relative_to(PACKAGE).parts[0], name.split(".")[1], path) for path in paths for name in imports(path)]
    return [edge for edge in found if edge[0] != edge[1]]


def test_every_room_is_known() -> None:
    """A new folder needs a row in the table above."""
    assert {path.parent.relative_to(PACKAGE).parts[0] for path in PACKAGE.glob("*/**/*.py")} == set(BELOW)


@pytest.mark.parametrize("room", BELOW)
def test_a_room_imports_only_rooms_below_it(room: str) -> None:
    """No import contradicts the table, and the table has no circle."""
    assert all(room not in BELOW[below] for below in BELOW[room])
    wrong = [
        (str(path), target)
        for source, target, path in edges()
        if source == room and target not in (*BELOW[room], *COMMON)
    ]
    assert not wrong


DECODERS = ("engine", "etcs", "rules")
"""The folders with what reads telegrams, or knows how they are laid out."""


def reached(module: str) -> List[str]:
    """All modules of balisekit that a module imports, by whatever way."""
    found, waiting = {module}, [module]
    while waiting:
        path = PACKAGE.parent.joinpath(*waiting.pop().split("."))
        path = path / "__init__.py" if path.is_dir() else path.with_suffix(".py")
        new = {name for name in imports(path) if name != "balisekit"} - found if path.exists() else set()
        found |= new
        waiting += new
    return sorted(found)


def test_the_design_needs_no_decoder() -> None:
    """What it lets one expect is worked out without anything that reads telegrams: no mistake is on both sides."""
    paths = list((PACKAGE / "design").glob("*.py"))
    below = {name for path in paths for name in reached(f"balisekit.design.{path.stem}") if path.stem != "__init__"}
    assert "balisekit.tables.chainage" in below and not [name for name in below if name.split(".")[1] in DECODERS]


def test_kilometres_need_no_decoder() -> None:
    """What serves both sides of a comparison with the design reads no telegrams, and what decodes them reaches it."""
    below = reached("balisekit.tables.chainage")
    assert "balisekit.tables.names" in below and not [name for name in below if name.split(".")[1] in DECODERS]
    deciding = reached("balisekit.rules.decoded")
    assert {"balisekit.tables.chainage", "balisekit.engine.records", "balisekit.etcs.geometry"} <= {*deciding}
