"""Pages as a browser's parser takes them: html5lib reads them without an error, and says what is where."""
from __future__ import annotations

import re
from collections import Counter
from pathlib import Path
from typing import Any, List

import pytest
from cases_of_program import TOP
from conftest import Run

from balisekit.cli import main as cli

html5lib = pytest.importorskip("html5lib")
pytest.importorskip("jinja2")
pytestmark = pytest.mark.uncovered
LINE = TOP / "examples" / "table" / "line.csv"
RADIO = TOP / "examples" / "radio-position-report.txt"
REPORTS: List[List[object]] = [[], ["--full"], ["--only", "F"], ["--messages", RADIO]]


def parsed(path: Path) -> Any:
    """The page as a tree of elements. A page with an error of form is refused, by the place of its first one."""
    parser = html5lib.HTMLParser(namespaceHTMLElements=False)
    page = parser.parse(path.read_text("utf-8"))
    assert not parser.errors, parser.errors[:3]
    return page


@pytest.fixture(scope="module", params=REPORTS, ids=lambda words: " ".join(map(str, words[:1])) or "usual")
def page(request: pytest.FixtureRequest, tmp_path_factory: pytest.TempPathFactory) -> Any:
    """A report on the example."""
    path = tmp_path_factory.mktemp("report") / "r.html"
    assert cli.main(["report", *map(str, [LINE, "--html", path, *request.param])]) == 2
    return parsed(path)


def test_landmarks(page: Any) -> None:
    """One header, one navigation with a name, one main with all sections; a language and a title."""
    assert page.get("lang") == "en" and page.find("head/title").text.startswith("Report of balisecheck: ")
    body = page.find("body")
    assert [one.tag for one in body] == ["a", "header", "nav", "main", "script"]
    assert body.find("nav").get("aria-label") and len(list(body.iter("main"))) == 1
    assert [one.get("id") for one in body.find("main")] == ["overview", "tracks", "found", "groups", "yes", "papers"]


def test_headings(page: Any) -> None:
    """They descend by one level, and each section begins with one, followed by its content."""
    found = [one for one in page.iter() if one.tag in ("h1", "h2", "h3", "h4")]
    levels = [int(one.tag[1]) for one in found]
    assert levels[0] == 1 and levels.count(1) == 1
    assert all(after <= before + 1 for before, after in zip(levels, levels[1:]))
    assert all("".join(one.itertext()).strip() for one in found)
    for group in (one for one in page.iter("section") if one.get("class") == "group"):
        assert [one.tag for one in group][:2] == ["h3", "p"] and group[-1].tag == "details"


def test_links_and_places(page: Any) -> None:
    """No two elements have one id, and each link leads to one."""
    ids = Counter(one.get("id") for one in page.iter() if one.get("id"))
    assert max(ids.values()) == 1
    targets = [one.get("href") for one in page.iter("a")]
    assert targets and all(target[0] == "#" and target[1:] in ids for target in targets)


def test_pictures(page: Any) -> None:
    """Each is an image with a title and a description, and its titles and texts are those of the shapes."""
    pictures = [one for one in page.iter() if one.get("class") == "picture"]
    assert len(pictures) > 10
    for picture in pictures:
        title, description, *shapes = picture
        name = "{http://www.w3.org/2000/svg}"
        assert picture.tag == f"{name}svg" and picture.get("role") == "img"
        assert (title.tag, description.tag) == (f"{name}title", f"{name}desc") and title.text and description.text
        assert {one.tag for one in shapes} == {f"{name}g", f"{name}path"}
        assert all(one.get("d", "").startswith("M") for one in picture.iter(f"{name}path"))
        assert all(one.get("x") or len(one) for one in picture.iter(f"{name}text"))


def test_folded_telegrams(page: Any) -> None:
    """Each has its heading, its digits and, if it was read, its words. All are there without the script."""
    telegrams = [one for one in page.iter("details") if one.find("pre") is not None]
    assert len(telegrams) >= 20
    for one in telegrams:
        kinds = [part.tag for part in one if part.tag != "p"]
        assert kinds in (["summary", "pre", "pre"], ["summary", "pre"])
        assert re.fullmatch("[0-9a-f .]{20,}", one.find("pre").text, re.I)


def test_the_page_of_a_diff(run: Run, tmp_path: Path) -> None:
    """It is of the same form."""
    other = tmp_path / "other.csv"
    other.write_text(LINE.read_text("utf-8").replace("Signal A", "Signal Z"), "utf-8")
    run("diff", LINE, other, "--html", tmp_path / "d.html")
    body = parsed(tmp_path / "d.html").find("body")
    assert [one.tag for one in body] == ["main"] and body.find("main/h1").text


def test_a_wrong_form_is_found(run: Run, tmp_path: Path) -> None:
    """An element that is not closed, and an attribute without the quotation marks that it needs."""
    run("report", LINE, "--html", tmp_path / "r.html")
    text = (tmp_path / "r.html").read_text("utf-8")
    for right, wrong in (("</main>", ""), ('class="skip"', 'class="skip"\''), ("</header>", "</header></div>")):
        (tmp_path / "wrong.html").write_text(text.replace(right, wrong, 1), "utf-8")
        with pytest.raises(AssertionError):
            parsed(tmp_path / "wrong.html")
