"""Makes docs/api.md from the docstrings of the public interface: `python3 companion/tests/api_page.py`.

What a class has is in its source: the text below each field, and the docstring of each method and property.
"""
from __future__ import annotations

import ast
import inspect
import sys
import textwrap
from pathlib import Path
from typing import Any, Iterator, List, Tuple

HERE = Path(__file__).resolve().parent
sys.path.insert(0, str(HERE.parent / "src"))

import balisekit  # noqa: E402  (the path comes first)

TOP = HERE.parents[1]
PAGE = TOP / "docs" / "api.md"
HEAD = """# balisekit as a Python module

For engineers who evaluate results in a script or a notebook, or who write [a rule of their own](added-rules.md). \
`companion/tests/api_page.py` makes this page from the docstrings.

In a clone, set `PYTHONPATH=companion/src`, after the .deb `PYTHONPATH=/usr/share/balisecheck/companion/src`. The \
wheel needs no path. The names of this page [stay](formats.md#what-stays-the-same). All other names of the modules can \
change.
"""
SECTIONS = (
    ("Functions", ("check", "read_table", "read_messages", "diff")),
    ("Results", ("Result", "Finding", "Difference", "KitError")),
    ("Inputs", ("Program", "Table", "Messages")),
    ("The library for C", ("Library", "Call")),
    ("Rules of your own", ("AddedRule", "LineView", "GroupView", "TelegramView", "PacketView", "MessageView")),
    ("What a rule yields", ("AddedRemark", "Answer")),
)
SHOWN = {
    "Program": ("find()", "path", "sha256"),
    "Library": (
        *("find()", "path", "version", "check()", "findings()", "decode()", "decode_radio()", "encode()"),
        *("encode_radio()", "telegram()", "message()"),
    ),
    "Call": ("status", "text", "fault"),
    "Table": ("path", "sha256"),
    "Messages": ("path", "sha256"),
    "AddedRemark": (),
}
"""The members that are public, of classes that have others too."""
ANSWER = "A remark, `None` if all is well, or a text: why something cannot be looked at, such as `no kilometre`."


def page() -> str:
    """The page."""
    example = (TOP / "examples" / "python" / "check_line.py").read_text("utf-8").strip()
    parts = [HEAD, f"## Example\n\n`examples/python/check_line.py` is run by a test:\n\n```python\n{example}\n```\n"]
    for title, names in SECTIONS:
        parts += [f"## {title}\n", *map(_about, names)]
    return "\n".join(parts)


def signature(name: str) -> str:
    """The head of a function as its source has it. A class has none."""
    found = getattr(balisekit, name)
    if not inspect.isfunction(found):
        return ""
    source = inspect.getsource(found).split('"""')[0].strip()
    return source[source.index("def ") :]  # (without decorators)


def _about(name: str) -> str:
    """The part of a name."""
    found = getattr(balisekit, name)
    if name == "Answer":
        return f"### `Answer`\n\n{ANSWER}\n"
    head = signature(name)
    said = [f"### `{name}`", *([f"```python\n{head}\n```"] if head else []), _text(inspect.getdoc(found) or "")]
    rows = list(members(found)) if inspect.isclass(found) else []
    if rows:
        said.append(
            "\n".join(["| Name | Meaning |", "| --- | --- |", *(f"| `{one}` | {text} |" for one, text in rows)])
        )
    return "\n\n".join(said) + "\n"


def members(found: Any) -> Iterator[Tuple[str, str]]:
    """The public members of a class that have a text, those of its bases too."""
    shown, seen = SHOWN.get(found.__name__), set()
    for each in found.__mro__:
        if not each.__module__.startswith("balisekit"):
            continue
        for name, text in _described(each):
            if not name.startswith("_") and (shown is None or name in shown) and name not in seen:
                seen.add(name)
                yield name, text


def _described(found: Any) -> Iterator[Tuple[str, str]]:
    """The members of one class and their texts, in the order of its source."""
    (tree,) = ast.parse(textwrap.dedent(inspect.getsource(found))).body
    assert isinstance(tree, ast.ClassDef)
    for node in tree.body:
        if isinstance(node, ast.FunctionDef) and node.name == "__init__":
            yield from _fields(node.body)
        elif isinstance(node, ast.FunctionDef):
            is_property = any(isinstance(one, ast.Name) and "property" in one.id for one in node.decorator_list)
            yield node.name + ("" if is_property else "()"), _text(ast.get_docstring(node) or "")
    yield from _fields(tree.body)


def _fields(body: List[ast.stmt]) -> Iterator[Tuple[str, str]]:
    """Each field, and the text below it."""
    for node, after in zip(body, body[1:]):
        target = node.target if isinstance(node, ast.AnnAssign) else (getattr(node, "targets", None) or [None])[0]
        name = target.id if isinstance(target, ast.Name) else getattr(target, "attr", "")
        text = after.value.value if isinstance(after, ast.Expr) and isinstance(after.value, ast.Constant) else ""
        if name and text:
            yield name, _text(str(text))


def _text(text: str) -> str:
    """A docstring in one line for each paragraph."""
    return "\n\n".join(" ".join(part.split()) for part in inspect.cleandoc(text).split("\n\n"))


if __name__ == "__main__":
    PAGE.write_text(page(), "utf-8")
