"""The page of `report` as its readers have it: landmarks, headings, colours, policy, links, and what is folded."""
from __future__ import annotations

import base64
import csv
import hashlib
import re
import shlex
import subprocess
from html.parser import HTMLParser
from itertools import chain
from pathlib import Path
from typing import Callable, Dict, Iterator, List, Optional, Tuple

import pytest
from cases_of_program import TOP
from conftest import Run
from telegrams import ALONE, FIRST, OTHER, SECOND

from balisekit.engine.program import Program
from balisekit.present import pages

pytestmark = pytest.mark.uncovered
LINE = TOP / "examples" / "table" / "line.csv"
LINKED = TOP / "examples" / "links" / "distance-differs.csv"
VOID = ("meta", "br", "input")
CELLS = ("td", "th")
"""A cell ends where the next one begins."""
Write = Callable[..., Path]
Attributes = Dict[str, Optional[str]]


class Page(HTMLParser):
    """The elements of a page, each with the elements around it and with its text."""

    def __init__(self, text: str) -> None:
        super().__init__()
        self.around: List[int] = []
        self.elements: List[Tuple[str, Attributes, List[int]]] = []
        self.texts: Dict[int, str] = {}
        self.feed(text)
        self.close()
        assert not self.around, "an element is not closed"

    def handle_starttag(self, tag: str, attrs: List[Tuple[str, Optional[str]]]) -> None:
        """Notes an element."""
        if tag in CELLS and self.elements[self.around[-1]][0] in CELLS:
            self.around.pop()
        self.elements.append((tag, dict(attrs), list(self.around)))
        if tag not in VOID:
            self.around.append(len(self.elements) - 1)

    def handle_startendtag(self, tag: str, attrs: List[Tuple[str, Optional[str]]]) -> None:
        """Notes an element of SVG that is empty."""
        self.elements.append((tag, dict(attrs), list(self.around)))

    def handle_endtag(self, tag: str) -> None:
        """Each element is closed before those around it. A cell ends with its row too."""
        if tag == "tr" and self.elements[self.around[-1]][0] in CELLS:
            self.around.pop()
        assert self.elements[self.around.pop()][0] == tag

    def handle_data(self, data: str) -> None:
        """Notes a text with each element around it."""
        for index in self.around:
            self.texts[index] = self.texts.get(index, "") + data

    def all(self, *tags: str, **wanted: str) -> Iterator[Tuple[str, Attributes, str]]:
        """The elements of these tags with these attributes: tag, attributes, text."""
        for index, (tag, attributes, _) in enumerate(self.elements):
            if tag in tags and all(attributes.get(name) == value for name, value in wanted.items()):
                yield tag, attributes, self.texts.get(index, "")

    def of(self, id: str) -> Tuple[str, str]:
        """Tag and text of the element with this id."""
        return next((tag, text) for tag, attributes, text in self.all(*{e[0] for e in self.elements}, id=id))


def report(run: Run, path: Path, *words: object, status: Optional[int] = None) -> str:
    """The page on a table."""
    target = path.with_suffix(".html")
    answer = run("report", path, "--html", target, "--force", *words)
    assert status is None or answer[0] == status, answer
    return target.read_text("utf-8")


def test_items_of_a_rule_are_a_list(run: Run, tmp_path: Path) -> None:
    """The page of a rule has its conditions as items, and each assumption that makes it a false alarm."""
    table = tmp_path / "t.csv"
    table.write_bytes((TOP / "examples" / "links" / "distance-differs.csv").read_bytes())
    (rule,) = re.findall(r'(?s)<details class="rule" id="L2".*?</details>', report(run, table, status=1))
    assert rule.count("<ul>") == 2 and rule.count("<li>") == 4 + 3 and "\n- " not in rule


@pytest.fixture
def line(tmp_path: Path) -> Path:
    """A copy of the example table, in a folder of its own."""
    path = tmp_path / "line.csv"
    path.write_bytes(LINE.read_bytes())
    return path


def test_landmarks_and_headings(run: Run, line: Path) -> None:
    """One header, one main, a navigation with a name; headings descend by one level; each th has its scope."""
    page = Page(report(run, line))
    assert [sum(tag == name for tag, _, _ in page.elements) for name in ("header", "main", "h1")] == [1, 1, 1]
    assert [attributes.get("aria-label") for _, attributes, _ in page.all("nav")] == ["Parts of the report"]
    levels = [int(tag[1]) for tag, _, _ in page.all("h1", "h2", "h3", "h4")]
    assert levels[0] == 1 and all(after <= before + 1 for before, after in zip(levels, levels[1:]))
    assert all(attributes.get("scope") in ("row", "col") for _, attributes, _ in page.all("th"))
    assert all(text.strip() for _, _, text in page.all("h1", "h2", "h3", "h4", "th", "summary", "a", "label"))
    assert not any((attributes.get("tabindex") or "0") != "0" for _, attributes, _ in page.elements)


def test_pictures_say_what_they_show(run: Run, line: Path) -> None:
    """Each has a title, with its group or its kilometres, and a description of what is drawn."""
    page = Page(report(run, line))
    pictures = [index for index, (_, attributes, _) in enumerate(page.elements) if attributes.get("role") == "img"]
    assert all([page.elements[index + at][0] for at in (1, 2)] == ["title", "desc"] for index in pictures)
    titles = {page.texts[index + 1]: page.texts[index + 2] for index in pictures}
    assert len(pictures) == len(titles) >= 8 + 3 and {"Signal A", "Infill of D", "km 10 to 15"} <= set(titles)
    assert "authority to 3000 m" in titles["Signal A"] and "Signal B at km 13.850" in titles["km 10 to 15"]


def colours(text: str) -> Dict[str, str]:
    """The variables of a style sheet with colours."""
    found = dict(re.findall(r"--([a-z]+): (#[0-9a-f]{3,6});", text))
    return {name: value if len(value) == 7 else re.sub("([0-9a-f])", r"\1\1", value) for name, value in found.items()}


def contrast(one: str, other: str) -> float:
    """The contrast of two colours, as WCAG 2 defines it: from 1 to 21."""

    def luminance(colour: str) -> float:
        parts = [int(colour[at : at + 2], 16) / 255 for at in (1, 3, 5)]
        linear: List[float] = [part / 12.92 if part <= 0.03928 else ((part + 0.055) / 1.055) ** 2.4 for part in parts]
        return 0.2126 * linear[0] + 0.7152 * linear[1] + 0.0722 * linear[2]

    low, high = sorted(map(luminance, (one, other)))
    ratio: float = (high + 0.05) / (low + 0.05)
    return ratio


def test_texts_have_contrast(run: Run, line: Path) -> None:
    """Each colour of a text against each background, on a light and on a dark screen, and on paper."""
    (style,) = re.findall("<style>(.*?)</style>", report(run, line), re.DOTALL)
    used = set(re.findall(r"[; {](?:color|--tone): var\(--([a-z]+)\)", style)) - {"tone"}
    behind = set(re.findall(r"background: var\(--([a-z]+)\)", style))
    dark = "".join(re.findall(r"@media screen and \(prefers-color-scheme: dark\) \{(.*?\n)\}", style, re.DOTALL))
    light = style
    for block in re.findall(r"@media screen and \(prefers-color-scheme: dark\) \{.*?\n\}", style, re.DOTALL):
        light = light.replace(block, "")
    assert contrast("#000000", "#ffffff") == pytest.approx(21)
    assert used >= {"ink", "muted", "blue", "red", "green", "warn"} and behind == {"paper", "panel", "marked"}
    for mode in (colours(light), {**colours(light), **colours(dark)}):
        assert colours(dark) and {*used, *behind} <= set(mode)
        for text in used:
            for ground in behind:
                if ground != "marked" or text in ("ink", "muted"):
                    assert contrast(mode[text], mode[ground]) >= 4.5, (text, ground, mode)


def test_lengths_on_bars_have_contrast() -> None:
    """The length of each section of an authority has the colour of the paper, on a bar that lets the paper through."""
    palette, css = ((pages.TEMPLATES / name).read_text("utf-8") for name in ("palette.css", "picture.css"))
    light, dark = map(colours, palette.split("@media"))
    assert ".picture .light { fill: var(--paper); stroke: none; }" in css
    for number, opacity in re.findall(r"\.section(.) \{ fill: var\(--green\);(?: fill-opacity: ([.0-9]+);)? \}", css):
        for mode in (light, dark):
            part, pairs = float(opacity or 1), [
                (mode[name][at : at + 2] for name in ("green", "paper")) for at in (1, 3, 5)
            ]
            bar = [round(int(own, 16) * part + int(behind, 16) * (1 - part)) for own, behind in pairs]
            assert contrast("#%02x%02x%02x" % tuple(bar), mode["paper"]) >= 4.5, (number, mode)
    assert css.count(".section0 {") == css.count(".section1 {") == 1


def test_the_policy_allows_one_style_and_one_script(run: Run, line: Path) -> None:
    """By their hashes, and nothing else: no attribute with a style or a handler, and no address."""
    text = report(run, line)
    allowed = {}
    for name in ("style", "script"):
        (content,) = re.findall(f"<{name}>(.*?)</{name}>", text, re.DOTALL)
        allowed[name] = base64.b64encode(hashlib.sha256(content.encode()).digest()).decode()
    (policy,) = re.findall('http-equiv="Content-Security-Policy" content="([^"]*)"', text)
    own = f"style-src 'sha256-{allowed['style']}'; script-src 'sha256-{allowed['script']}'"
    assert policy == f"default-src 'none'; {own}; base-uri 'none'; form-action 'none'"
    names = {name for _, attributes, _ in Page(text).elements for name in attributes}
    assert not any(name.startswith("on") or name in ("style", "src", "action") for name in names)
    script = (pages.TEMPLATES / "report.js").read_text("utf-8")
    assert not re.search("innerHTML|outerHTML|insertAdjacentHTML|document.write|eval|fetch|XMLHttp|https?:", script)


def test_what_needs_the_script_is_hidden_without_it(run: Run, line: Path) -> None:
    """All that reading needs is there without the script: it shows the search, and makes the buttons."""
    page = Page(report(run, line))
    (search,) = page.all("p", **{"class": "search"})
    assert "hidden" in search[1]
    assert not list(page.all("button")) and all(
        any(page.elements[index][1].get("class") == "search" for index in around)
        for tag, _, around in page.elements
        if tag == "input"
    )


def test_the_overview_has_all_groups(run: Run, line: Path, tmp_path: Path) -> None:
    """A row for each with a link to it, its numbers, and what is found, open or accepted. The refused one is named.

    What is expected of correct data, or accepted, is in another colour.
    """
    text = report(run, line, "--only", "F")
    rows = re.findall(r"<tr[^>]*>(<td>.*?)</tr>", text[: text.index('<section id="tracks">')])
    cells = [re.sub("<[^>]*>", "|", row).split("|") for row in rows]
    assert [list(filter(None, row)) for row in cells[2:6]] == [
        ["15.300", "Signal C", "2", "352/103", "2", "3", "5 12 21 27"],
        ["16.500", "Infill of D", "2", "352/201", "1", "2", "12 21 27 136"],
        ["16.900", "Signal D", "352/104", "2", "3", "5 12 21 27"],
        ["18.250", "Signal E", "1", "352/105", "2", "3", "5 12 21 27"],
    ]
    assert "not checked" in rows[6] and "Signal F" in rows[6] and len(rows) == 9
    assert [re.findall("href=#(g[0-9]+)>", row) for row in rows] == [[f"g{index}"] for index in range(9)]
    proposed = tmp_path / "proposed.csv"
    run("check", line, "--only", "F", "--propose", proposed)
    signed = [
        {**row, "reason": "looked at", "who": "J. Doe", "date": "2026-01-02"}
        for row in csv.DictReader(proposed.read_text("utf-8").splitlines())
        if row["rule"] == "F10"
    ]
    with open(tmp_path / "signed.csv", "w", encoding="utf-8", newline="") as file:
        writer = csv.DictWriter(file, list(signed[0]))
        writer.writeheader()
        writer.writerows(signed)
    text = report(run, line, "--only", "F", "--accepted", tmp_path / "signed.csv")
    assert '<td class="found quiet">2, 1 accepted<td>' in text and "<td class=found>1<td>" in text
    assert "1 accepted, 4 open" in text


def test_messages_are_in_the_overview(run: Run, line: Path, tmp_path: Path) -> None:
    """A message has a row with its packets."""
    messages = tmp_path / "m.txt"
    messages.write_text((TOP / "examples" / "radio-position-report.txt").read_text())
    text = report(run, line, "--messages", messages)
    (row,) = re.findall("<tr><td><th scope=row><a href=#m1>.*?</tr>", text)
    assert "message of line 1" in row and row.endswith("<td>0 44</tr>")


SENTENCES = [
    (["A," + ALONE], [], 0, "good", "Nothing found", "no findings; no remarks; rules over the line not applied"),
    (["A," + ALONE], ["--only", "F"], 0, "good", "Nothing found", "no findings; only the rules F applied"),
    (["A," + SECOND, "A," + FIRST], ["--only", "F"], 1, "open", "Findings", "4 findings in 1 of 1 group; only "),
    (["A," + ALONE, "B," + "a1" * 27], [], 2, "incomplete", "Incomplete", "1 of 2 telegrams refused; no findings; "),
    (["A," + "a1" * 27], [], 2, "incomplete", "Incomplete", "1 of 1 telegrams refused; no findings; "),
]


@pytest.mark.parametrize("rows, words, status, tone, word, sentence", SENTENCES)
def test_the_verdict_is_a_sentence(
    run: Run, table: Write, rows: List[str], words: List[str], status: int, tone: str, word: str, sentence: str
) -> None:
    """With a word and a colour, above the last lines of `check`. Its numbers are those of `check`."""
    path = table("group,telegram", *rows)
    text = report(run, path, *words, status=status)
    assert f'<div class="outcome {tone}">\n<p class="word">{word}</p>\n<p class="sentence">{sentence}' in text
    assert run("check", path, *words)[1][-1] in "".join(Page(text).texts.values())


def test_remarks_alone_are_no_findings(run: Run, tmp_path: Path) -> None:
    """The program's verdict is yes, and remarks are counted by the letter of their family."""
    path = tmp_path / "line.csv"
    path.write_bytes(LINKED.read_bytes())
    text = report(run, path, status=1)
    assert '<p class="word">Remarks</p>\n<p class="sentence">no findings; 1 remark (L 1)</p>' in text


def test_the_commands_repeat_the_verdict(
    run: Run, line: Path, program: Program, tmp_path: Path, monkeypatch: pytest.MonkeyPatch
) -> None:
    """The document of these commands has the checksum of the page, and the program answers as the page quotes it."""
    messages = tmp_path / "the messages.txt"
    messages.write_text((TOP / "examples" / "radio-position-report.txt").read_text())
    page = report(run, line, "--messages", messages, "--by-position", "--all", "--only", "F,L")
    (evidence,) = re.findall('<div class="evidence">(.*?)</div>', page, re.DOTALL)
    (commands,) = [text for _, _, text in Page(evidence).all("pre")]
    first, second, third = commands.splitlines()
    words = shlex.split(first)
    document = tmp_path / words[-1]
    monkeypatch.chdir(line.parent)
    assert words[:3] == ["balisekit", "check", line.name] and run(*words[1:-1], document)[0] == 2
    assert second == f"sha256sum {words[-1]}" and third == f"balisecheck check < {words[-1]}"
    assert f'<span class="program">{hashlib.sha256(document.read_bytes()).hexdigest()}</span>' in evidence
    with open(document, "rb") as file:
        answer = subprocess.run([program.path, "check"], stdin=file, capture_output=True, text=True, check=False)
    quoted = Page(evidence).all("span", **{"class": "program"})
    assert answer.stdout.splitlines()[0] == next(text for _, _, text in quoted) == "no: findings 5"


def test_nothing_to_repeat(run: Run, table: Write) -> None:
    """If all was refused, the program had nothing to check, and no command is shown."""
    text = report(run, table("group,telegram", "A," + "a1" * 27), status=2)
    assert "Nothing was handed to the program" in text and "sha256sum" not in text


def test_the_heading_is_that_of_the_project(run: Run, line: Path) -> None:
    """Texts of [report] in balisekit.toml. What it does not state has no box."""
    text = report(run, line)
    facts = re.compile('<tr><th scope="row">([a-z]+)</th><td><bdi>(.*?)</bdi></td></tr>')
    assert [name for name, _ in facts.findall(text)] == ["table", "date", "program", "settings"]
    assert 'class="signatures"' not in text
    (line.parent / "balisekit.toml").write_text(
        '[report]\nproject = "Line <b>"\nrevision = "C"\nauthor = "J. Doe"\nsignatures = ["prepared", "verified"]\n'
    )
    text = report(run, line)
    found = facts.findall(text)
    assert [name for name, _ in found] == ["project", "table", "revision", "date", "author", "program", "settings"]
    assert found[0][1] == "Line &lt;b&gt;" and "<title>Report of balisecheck: Line &lt;b&gt;</title>" in text
    assert re.findall('<th scope="row"><bdi>(.*?)</bdi></th><td></td><td></td>', text) == ["prepared", "verified"]


@pytest.mark.parametrize(
    "toml, why",
    [
        ('[report]\nprojekt = "x"', '[report] has an unknown key projekt: did you mean "project"?'),
        ("[report]\nrevision = 3", '[report] revision is no text: write revision = "..."'),
        ('[report]\nproject = [""]', "[report] project is no text"),
        ('[report]\nsignatures = "a"', '[report] signatures is no text: write signatures = ["prepared", "verified"]'),
        ('[report]\nauthor = " "', "[report] author is no text"),
        ("report = 3", "report is no table: write [report], and a line for each key below it"),
    ],
)
def test_bad_headings(run: Run, line: Path, toml: str, why: str) -> None:
    """They are refused with their file, and no page is written."""
    (line.parent / "balisekit.toml").write_text(toml)
    status, _, err = run("report", line, "--html", line.with_suffix(".html"))
    assert status == 2 and err[0].startswith(f"balisekit: {line.parent / 'balisekit.toml'}: {why}"), err
    assert not line.with_suffix(".html").exists()


def test_an_entry_leads_to_its_places(run: Run, line: Path) -> None:
    """To its picture, its row, its packet, which is marked, and its rule; each other packet is not marked."""
    text = report(run, line)
    page = Page(text)
    (entry,) = re.findall(
        r'<div class="finding"><a href="#pg5"><bdi>row 23  Signal E.*?</div>',
        text[: text.index('id="groups"')],
        re.DOTALL,
    )
    links = re.findall('<a href="#([^"]*)">([^<]*)</a>', entry)
    assert links == [("pg5", "picture"), ("r23", "row 23"), ("r23p1", "packet"), ("F11", "F11")]
    tag, packet = page.of("r23p1")
    packet = packet.expandtabs(22)
    assert tag == "mark" and packet.lstrip().startswith("packet 21, 2nd  ") and "gradient profile [21]" in packet
    assert "packet 27" not in packet and page.of("r23")[0] == "details" and page.of("F11")[0] == "details"
    assert page.of("pg5")[0] == "figure"
    marked = [str(attributes["id"]) for _, attributes, _ in page.all("mark")]
    assert sorted(marked) == ["r14p0", "r15p0", "r15p1", "r23p1"]
    shown = "\n".join(run("show", line)[1])
    assert all(packet.expandtabs(22) in shown for _, _, packet in page.all("mark"))
    assert "tab-size: 22;" in text


def test_what_is_folded(run: Run, line: Path) -> None:
    """Telegrams and texts of rules, and groups of which nothing is found are not printed. --full folds nothing."""
    texts = [report(run, line, *words) for words in ((), ("--full",))]
    folded, full = ([attributes for _, attributes, _ in Page(text).all("details")] for text in texts)
    assert [each.get("id") for each in folded if "open" in each] == ["r26"], "a refused telegram is not folded"
    assert [each.get("class") for each in full if "open" not in each] == ["papers"] and len(full) == len(folded)
    groups = [
        [attributes.get("data-print") for _, attributes, _ in Page(text).all("section") if attributes.get("class")]
        for text in texts
    ]
    assert groups == [["no", "no", None, None, "no", None, None, "no", "no"], [None] * 9]
    assert "groups without findings or remarks (5 of 9)" in texts[0] and "Not printed" not in texts[1]


def test_each_part_of_the_navigation_is_there(run: Run, line: Path, table: Write) -> None:
    """A table without kilometres has no track."""
    for path in (line, table("group,telegram", "A," + ALONE, "B," + OTHER, name="no-km.csv")):
        text = report(run, path)
        (links,) = re.findall("<nav.*?</nav>", text, re.DOTALL)
        targets = re.findall('href="#([a-z]+)"', links)
        ids = {str(attributes["id"]) for _, attributes, _ in Page(text).all("section") if "id" in attributes}
        assert set(targets) <= ids and ("tracks" in targets) == (path is line)


def test_all_pages_have_the_palette() -> None:
    """Each variable of a style sheet is a colour of the palette, or of the sheet itself."""
    sheets = {path.name: path.read_text("utf-8") for path in pages.TEMPLATES.glob("*.css")}
    known = set(chain.from_iterable(re.findall("(--[a-z]+):", sheet) for sheet in sheets.values()))
    assert {name for sheet in sheets.values() for name in re.findall(r"var\((--[a-z]+)\)", sheet)} <= known
