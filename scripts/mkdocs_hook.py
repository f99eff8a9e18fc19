"""What mkdocs adds to `docs/` for a site of all pages: the hook of mkdocs.yml.

The site is made of a copy of the repository's pages beside it, in out/pages, in which each keeps its folder. So their
links lead to the same files as in the repository. Files and folders that a page links to are copied too, and a folder
gets a list of its files.
"""
from __future__ import annotations

import re
import shutil
import subprocess
from pathlib import Path
from typing import Any, Iterator, List

TOP = Path(__file__).resolve().parents[1]
ROOM = TOP / "out" / "pages"
NOT_PAGES = ("companion/", "dist/", "LICENSE")
LINK = re.compile(r"\]\(([^)\s#]+)[^)\s]*\)")


def on_config(config: Any) -> Any:
    """Has mkdocs read the copy in place of docs/."""
    global ROOM
    ROOM = Path(config["site_dir"]).with_name("pages")
    shutil.rmtree(ROOM, ignore_errors=True)
    for name in names():
        copy(name)
    shutil.copyfile(Path(__file__).with_name("site.css"), ROOM / "site.css")
    config["docs_dir"] = str(ROOM)
    return config


def names() -> List[str]:
    """The pages of the repository."""
    asked = subprocess.run(["git", "ls-files", "*.md"], cwd=TOP, capture_output=True, text=True, check=False)
    every = asked.stdout.split() or [str(path.relative_to(TOP)) for path in TOP.rglob("*.md")]
    return [name for name in every if not name.startswith((*NOT_PAGES, "out/")) and (TOP / name).is_file()]


def copy(name: str) -> None:
    """Copies a page with what it links to."""
    text = (TOP / name).read_text("utf-8")
    for target in targets(text):
        path = (TOP / name).parent / target
        place = ROOM / path.resolve().relative_to(TOP)
        if path.is_dir() and not (path / "README.md").exists():
            shutil.copytree(path, place, dirs_exist_ok=True, ignore=shutil.ignore_patterns("__pycache__"))
            write(place / "README.md", listing(path))
        elif path.is_file() and path.suffix != ".md":
            place.parent.mkdir(parents=True, exist_ok=True)
            shutil.copyfile(path, place)
    write(ROOM / name, re.sub(LINK, lambda link: to_a_page((TOP / name).parent, link), text))


def targets(text: str) -> Iterator[str]:
    """The paths that a text links to."""
    return (target for target in LINK.findall(text) if not re.match("[a-z]+:", target))


def to_a_page(folder: Path, link: "re.Match[str]") -> str:
    """The link, which leads to the page of a folder."""
    path = folder / link[1]
    return link[0].replace(link[1], f"{link[1].rstrip('/')}/README.md", 1) if path.is_dir() else link[0]


def listing(folder: Path) -> str:
    """The page of a folder that has none of its own."""
    every = (path for path in folder.rglob("*") if path.is_file() and path.parent.name != "__pycache__")
    files = sorted(path.relative_to(folder).as_posix() for path in every)
    return f"# {folder.name}\n\n" + "".join(f"- [{name}]({name})\n" for name in files)


def write(path: Path, text: str) -> None:
    """Writes a page."""
    path.parent.mkdir(parents=True, exist_ok=True)
    path.write_text(text, "utf-8")
