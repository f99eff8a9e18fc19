"""Dangerous texts of a table, in every output that has them: shown as they are, or neutralised."""
from __future__ import annotations

import csv
import json
import re
import xml.etree.ElementTree as ElementTree
from pathlib import Path
from typing import Callable, Dict, List

import pytest
from conftest import Run
from telegrams import DEFAULT, FIRST, OTHER
from test_report_page import Page

from balisekit.io.csv_writing import plain
from balisekit.tables.names import clean

TEXTS = {
    "script": "<script>alert(1)</script>",
    "attribute": "\" onload='alert(1)' x=\"",
    "entities": "&lt;b&gt;&amp;&#60;i&#62;",
    "end": "]]></desc></title></style><script>",
    "formula": "=HYPERLINK(A1)",
    "plus": "+1+cmd",
    "template": "{{ 7 * 7 }}{% raw %}",
    "right to left": "a\u202eb\u2066c\u200fd",
    "zero width": "a\u200bb\u2060c\ufeffd\u00ade",
    "no ink": "a\u3164b\u2800c",
}
INVISIBLE = re.compile("[\u00ad\u200b-\u200f\u202a-\u202e\u2060-\u2069\ufeff\u3164\u2800]")
HEADING = ["group", "name", "km", "track", "aspect", "telegram", "other"]
SIGNED = ["rule", "nid_c", "nid_bg", "message", "aspect", "balise", "packet", "direction", "reason", "who", "date"]
FORMULA = ("=", "+", "-", "@")
DATA = ("table.csv", "table.xlsx", "proposed.csv")
"""The sheets that balisekit reads again: they have the names of the table as they are."""


def texts_of_html(path: Path) -> str:
    """The texts of a page, which has no tag and no attribute of a name."""
    page = Page(path.read_text("utf-8"))
    names = {name for _, attributes, _ in page.elements for name in attributes}
    assert "onload" not in names and sum(tag == "script" for tag, _, _ in page.elements) <= 1
    return "".join(page.texts.values())


def texts_of_xml(path: Path) -> str:
    """The texts and attributes of a document, which has no element of a name."""
    elements = list(ElementTree.parse(path).iter())
    assert not any(element.tag.endswith("script") or "onload" in element.attrib for element in elements)
    return "".join(f"{element.text}{''.join(element.attrib.values())}" for element in elements)


def texts_of_json(path: Path) -> str:
    """The texts of a document."""

    def texts(form: object) -> List[str]:
        inner = form.values() if isinstance(form, dict) else form if isinstance(form, list) else ()
        return [form] if isinstance(form, str) else [text for each in inner for text in texts(each)]

    return "".join(texts(json.loads(path.read_text("utf-8"))))


def texts_of_csv(path: Path) -> str:
    """The cells of a sheet, none of which is a formula for a spreadsheet."""
    with open(path, newline="", encoding="utf-8") as file:
        cells = [cell for row in csv.reader(file) for cell in row]
    assert not any(cell.startswith(FORMULA) and not re.fullmatch("-?[0-9.]+", cell) for cell in cells)
    return "".join(map(plain, cells))


def texts_of_xlsx(path: Path) -> str:
    """The cells of a sheet, none of which is a formula."""
    openpyxl = pytest.importorskip("openpyxl")
    cells = [cell for row in openpyxl.load_workbook(path).active.iter_rows() for cell in row]
    assert not any(cell.data_type == "f" for cell in cells)
    return "".join(str(cell.value) for cell in cells)


READERS: Dict[str, Callable[[Path], str]] = {
    "html": texts_of_html,
    "svg": texts_of_xml,
    "xml": texts_of_xml,
    "sarif": texts_of_json,
    "csv": texts_of_csv,
    "xlsx": texts_of_xlsx,
}
OUTPUTS = {
    "report.html": "report TABLE --messages MESSAGES --accepted ACCEPTED --html",
    "full.html": "report TABLE --full --html",
    "diff.html": "diff TABLE CHANGED --html",
    "group.svg": "draw TABLE --group NAME --svg",
    "track.svg": "draw TABLE --track NAME --svg",
    "check.xml": "check TABLE --messages MESSAGES --accepted ACCEPTED --junit",
    "check.sarif": "check TABLE --sarif",
    "check.xlsx": "check TABLE --xlsx",
    "table.csv": "table TABLE --csv",
    "table.xlsx": "table TABLE --xlsx",
    "proposed.csv": "check TABLE --propose",
}


@pytest.mark.uncovered
@pytest.mark.parametrize("output", OUTPUTS)
@pytest.mark.parametrize("text", TEXTS.values(), ids=TEXTS)
def test_a_text_does_no_harm(run: Run, tmp_path: Path, text: str, output: str) -> None:
    """It is read back from the output as the table has it, or with escapes for characters without ink."""
    rows = [[text, text, "1.000", text, text, FIRST, text], [text, text, "1.000", text, "b", OTHER, text]]
    changed = [*rows[:1], [*rows[1][:5], DEFAULT, text]]
    for name, some in (("table.in", rows), ("changed.in", changed)):
        with open(tmp_path / name, "w", newline="", encoding="utf-8") as file:
            csv.writer(file).writerows([[*HEADING[:-1], f"other {text}"], *some])
    with open(tmp_path / "accepted.in", "w", newline="", encoding="utf-8") as file:
        entry = ["F16", "1", "1", "", "", "", "", "", text, text, "2026-01-02"]
        csv.writer(file).writerows([SIGNED, entry])
    (tmp_path / "messages.in").write_text(f"0304;{text}\n", "utf-8")
    (tmp_path / "balisekit.toml").write_text(f"[report]\nproject = {json.dumps(text, ensure_ascii=False)}\n", "utf-8")
    files = {word.upper(): str(tmp_path / f"{word}.in") for word in ("table", "changed", "accepted", "messages")}
    words = [files.get(word, text if word == "NAME" else word) for word in OUTPUTS[output].split()]
    target = tmp_path / output
    status, _, err = run(*words, target)
    assert status in (0, 1, 2) and target.exists(), err
    found = READERS[target.suffix[1:]](target)
    assert clean(text) in found and not INVISIBLE.search(found) or output in DATA and text in found
