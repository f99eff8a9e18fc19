"""`draw` and `report`: pictures that are well formed, pages that name all that the program said, and hostile names."""
from __future__ import annotations

import csv
import hashlib
import html
import json
import os
import re
import sys
import xml.etree.ElementTree as ElementTree
from decimal import Decimal
from html.parser import HTMLParser
from pathlib import Path
from typing import Any, Dict, List, Optional, Tuple

import pytest
from cases_of_program import TOP
from conftest import Run, without_program
from telegrams import FIRST, MESSAGE, OTHER, SECOND, digest
from test_text_boxes import faults

from balisekit.cli import main as cli
from balisekit.drawing.group import PictureRow, draw
from balisekit.engine.program import Program
from balisekit.engine.records import Form
from balisekit.etcs.geometry import Kilometres
from balisekit.io import csv_writing
from balisekit.present.pages import pieces
from balisekit.rules.accepted import COLUMNS

LINE = TOP / "examples" / "table" / "line.csv"
HEADER = "a1007f802000" + "f" * 40 + "c0"
HOSTILE = "<script>alert(1)</script>&\"'\x07\x1b[2J\u202e=1+1"
TAGS = set(
    (
        "html head meta title desc style body svg g rect path text tspan div h1 h2 h3 h4 p table thead tbody tr th td "
        "script br bdi a b span section pre ul li header nav main figure details summary label input output "
    ).split()
)
ATTRIBUTES = set(
    (
        "id class href lang charset http-equiv content name role x y width height viewbox d "
        "scope data-print hidden type autocomplete tabindex aria-label open colspan "
    ).split()
)


class _Page(HTMLParser):
    """The tags of a page, its texts and its links."""

    def __init__(self, page: str) -> None:
        super().__init__()
        self.tags: List[Tuple[str, Dict[str, Optional[str]]]] = []
        self.texts: List[str] = []
        self.feed(page)
        self.close()

    def handle_starttag(self, tag: str, attrs: List[Tuple[str, Optional[str]]]) -> None:
        """Notes a tag with its attributes."""
        self.tags.append((tag, dict(attrs)))

    def handle_data(self, data: str) -> None:
        """Notes a text."""
        self.texts.append(data)


def _report(table: Path, target: Path, *words: str) -> Tuple[int, str]:
    status = cli.main(["report", str(table), "--html", str(target), "--force", *words])
    return status, target.read_text("utf-8")


def _table(path: Path, *rows: Dict[str, str]) -> Path:
    with open(path, "w", newline="", encoding="utf-8") as file:
        writer = csv.DictWriter(file, ["group", "name", "km", "aspect", "telegram"], restval="")
        writer.writeheader()
        writer.writerows(rows)
    return path


LINKS = sorted((TOP / "examples" / "links").glob("*.csv"))


@pytest.mark.uncovered
@pytest.mark.parametrize("table", [LINE, *LINKS], ids=lambda path: str(path.name))
@pytest.mark.parametrize("words", [(), ("--only", "F"), ("--only", "L"), ("--only", "f,l", "--tolerance", "20")])
def test_the_page_has_all_that_was_said(
    table: Path, words: Tuple[str, ...], tmp_path: Path, capsys: pytest.CaptureFixture[str]
) -> None:
    """Each line of `check`, its status, checksums, each balise, and from each entry a link that leads somewhere."""
    status, page = _report(table, tmp_path / "report.html", *words)
    closing = capsys.readouterr().out.splitlines()[3:]
    assert status == cli.main(["check", str(table), *words])
    said = capsys.readouterr().out.splitlines()
    seen = _Page(page)
    text = "".join(seen.texts)
    short = [line for line in said if line.startswith("not compared, as of most lines: ")]
    assert all(f"not compared by {rule}: " in text for line in short for rule in re.findall(r"\((E[0-9]+)\)", line))
    for line in (each for each in said[1:] if each not in short):
        told = line.strip().replace("program: ", "").replace("left out: ", "").replace("settings: ", "")
        told = told.replace("; --folded lists them", "")
        told = re.sub(
            "^(findings that|(findings of|links, by|remarks on).*proved).*:.*", lambda found: _title(found[0]), told
        )
        assert told in text, line
    assert said[-len(closing) :] == closing and f'<p class="verdict">{escape(closing[-1])}</p>' in page
    assert hashlib.sha256(table.read_bytes()).hexdigest() in text
    assert text.count("balisekit is not proved; the program's own lines are quoted in full") == 1
    ids = [attributes["id"] for _, attributes in seen.tags if "id" in attributes]
    links = [(attributes["href"] or "")[1:] for tag, attributes in seen.tags if tag == "a"]
    assert len(ids) == len(set(ids)) and set(links) <= set(ids)
    assert len(links) > sum(line.startswith("row") for line in said)
    assert page.count("<script>") == 1
    with open(table, encoding="utf-8") as file:
        for number, row in enumerate(csv.DictReader(file), 2):
            assert f"r{number}" in ids and row["telegram"] in text
    assert not re.search(r"https?://(?!www\.w3\.org/2000/svg)|<script[^>]|<img|<link", page)


def escape(text: str) -> str:
    """The text as a page has it."""
    return html.escape(text).replace("&quot;", "&#34;").replace("&#x27;", "&#39;")


def _title(heading: str) -> str:
    return heading[0].upper() + heading[1:].split(":")[0]


def test_links_are_accepted_beside_findings(tmp_path: Path, capsys: pytest.CaptureFixture[str]) -> None:
    """Each family has its own list of what is open, and of what was accepted; the verdict is that of `check`."""
    table, proposed = TOP / "examples" / "links" / "distance-differs.csv", tmp_path / "proposed.csv"
    assert cli.main(["check", str(table), "--propose", str(proposed)]) == 1
    (row,) = csv.DictReader(proposed.read_text("utf-8").splitlines())
    key = {name: value for name, value in row.items() if value}
    signed = _accepted(tmp_path / "accepted.csv", {**key, "reason": "surveyed"})
    capsys.readouterr()
    status, page = _report(table, tmp_path / "r.html", "--accepted", str(signed))
    told = capsys.readouterr().out.splitlines()[4:]
    assert row["rule"] == "L2" and status == 0
    assert told[-1].startswith("no open findings, links or remarks") and all(escape(line) in page for line in told)
    accepted = _between(page, ACCEPTED, PAPERS)
    assert accepted.count(f"<td><bdi>surveyed</bdi></td>{SIGNED}</td>") == 1 and "L2: packet 5" in accepted
    block = page[page.index('<section class="group" id="g0">') :]
    assert "L2: packet 5" in block and "accepted: surveyed" in block


def test_what_was_not_looked_at_stands_before_the_verdict(tmp_path: Path) -> None:
    """Packets that are kept as bits, links that are not compared, and rules that are not applied."""
    _, page = _report(LINE, tmp_path / "r.html")
    before = page[: page.index('<p class="verdict">')]
    assert "decoded only by balisekit: packet 136 in 2 telegrams (rows 14 to 15)" in before
    assert "not compared by L6: 1 of 34 headers (refused: 1)" in before
    _, page = _report(_table(tmp_path / "t.csv", {"group": "A", "telegram": HEADER}), tmp_path / "r.html")
    assert "no kilometres: rules over the line are not applied" in page[: page.index('<p class="verdict">')]
    assert "1 telegram of 1 group; utf-8" in page
    _, page = _report(TOP / "examples" / "links" / "line.csv", tmp_path / "r.html")
    assert "Not looked at" not in page


def test_the_cover_says_how_balises_are_ordered(tmp_path: Path) -> None:
    """If they are ordered by N_PIG, a wrong one is not found."""
    path = _table(tmp_path / "t.csv", {"group": "A", "telegram": SECOND}, {"group": "A", "telegram": FIRST})
    for words, status in (((), 1), (("--by-position",), 0)):
        found, page = _report(path, tmp_path / "report.html", *words)
        assert found == status and ("--by-position orders balises by N_PIG" in page) == bool(words)


def test_a_page_on_standard_output(
    tmp_path: Path, capfd: pytest.CaptureFixture[str], monkeypatch: pytest.MonkeyPatch
) -> None:
    """It is the page of a file, and the verdict is on standard error."""
    monkeypatch.setenv("SOURCE_DATE_EPOCH", "1700000000")
    _, page = _report(LINE, tmp_path / "r.html")
    told = [line.replace(str(tmp_path / "r.html"), "standard output") for line in capfd.readouterr().out.splitlines()]
    assert cli.main(["report", str(LINE), "--html", "-"]) == 2
    out, err = capfd.readouterr()
    assert out == page
    assert err.splitlines() == told and "written: standard output" in told and told[-1].startswith("INCOMPLETE: ")


def test_the_rows_of_a_block(tmp_path: Path) -> None:
    _, page = _report(
        _table(
            tmp_path / "t.csv",
            {"group": "A", "telegram": FIRST},
            {"group": "A", "telegram": SECOND},
            {"group": "B", "telegram": OTHER},
        ),
        tmp_path / "report.html",
    )
    assert re.findall("<p>(.*) of the table</p>", page) == ["rows 2 to 3", "row 4"]


def _accepted(path: Path, *rows: Dict[str, str]) -> Path:
    """A file of accepted findings, signed."""
    signed = {"nid_c": "352", "reason": "by <b>design</b>", "who": "J. Doe", "date": "2026-01-02"}
    path.write_text(csv_writing.text(COLUMNS, [[{**signed, **row}.get(name, "") for name in COLUMNS] for row in rows]))
    return path


PROGRAM, RULES = "<h3>Findings of the program, proved</h3>", "<h3>What the rules say</h3>"
ACCEPTED, PAPERS = '<h3 id="accepted">Accepted entries</h3>', '<section id="papers">'
SIGNED = "<td><bdi>J. Doe</bdi></td><td>2026-01-02</td><td>"


def _between(page: str, begin: str, end: str) -> str:
    return page[page.index(begin) : page.index(end)]


def _entries_of_the_line() -> List[Dict[str, str]]:
    """Entries for all findings of the example table."""
    stop, infill = {"nid_bg": "103", "aspect": "red", "direction": "nominal"}, {"nid_bg": "201", "rule": "F9"}
    texts = [line.rsplit(",", 1)[1] for line in LINE.read_text("utf-8").splitlines()]
    # (what a finding has in a field with * is a line before its telegrams)
    red, green = digest(texts[9:11]), digest(["aspect green", texts[19], texts[22]])
    both = digest(["aspect red", texts[13]], ["aspect green", texts[14]])
    rows = [
        {**stop, "rule": "F10", "sha256": red},
        {**stop, "rule": "F12", "sha256": red},
        {**infill, "aspect": "*", "balise": "0", "packet": "0", "until": "2999-01-01", "sha256": both},
    ]
    last = {"nid_bg": "105", "rule": "F11", "aspect": "*", "balise": "1", "packet": "1", "direction": "nominal"}
    return [*rows, {**last, "sha256": green}]


def test_accepted_findings_stand_apart(tmp_path: Path, capsys: pytest.CaptureFixture[str]) -> None:
    """With reason, name and date, after those that are open. The cover has the lines and the status of `check`."""
    table = tmp_path / "line.csv"
    with open(LINE, encoding="utf-8") as file:
        table.write_text("".join(line for line in file if not line.startswith("Signal F")), "utf-8")
    *rows, last = _entries_of_the_line()
    for some, counts, status in (
        (rows, "accepted 4 (2 by *), open 1", 1),
        ([*rows, last], "accepted 5 (3 by *), open 0", 0),
        ([*rows, {**last, "until": "2026-02-01"}], "accepted 4 (2 by *), open 1; entries at fault 1", 1),
    ):
        words = ["--accepted", str(_accepted(tmp_path / "accepted.csv", *some))]
        words += ["--only", "F"]
        assert cli.main(["check", str(table), *words]) == status
        said = capsys.readouterr().out.splitlines()
        assert _report(table, tmp_path / "report.html", *words)[0] == status
        page = (tmp_path / "report.html").read_text("utf-8")
        told = capsys.readouterr().out.splitlines()[4:]
        assert told == said[-len(told) :] and 'program: "no: findings 5"' in told
        closing = "\n".join(
            ['program: "no: findings 5"', f"findings 5: {counts}", *(["no open findings; accepted by *: 3"][status:])]
        )
        assert f'<p class="verdict">{escape(closing)}</p>' in page
        assert ("until 2026-02-01 is past" in page) == ("fault" in counts)
        still_open, accepted = _between(page, PROGRAM, RULES), _between(page, ACCEPTED, PAPERS)
        assert ("F11 group 5 aspect 2" in still_open, "F11 group 5 aspect 2" in accepted) == (status == 1, status == 0)
        assert ("None is open: all were <a" in still_open) == (status == 0)
        assert accepted.count(f"<td><bdi>by &lt;b&gt;design&lt;/b&gt;</bdi></td>{SIGNED}") == (4, 3)[status]
        assert accepted.count(f"{SIGNED}2999-01-01</td>") == 1 and "accepted: " not in still_open
        assert hashlib.sha256((tmp_path / "accepted.csv").read_bytes()).hexdigest() in page


def test_a_report_with_entries_that_is_not_whole(tmp_path: Path, capsys: pytest.CaptureFixture[str]) -> None:
    """What was left out is the last word, and none of it is a yes. A file of entries that cannot be read is refused."""
    status, page = _report(LINE, tmp_path / "r.html", "--accepted", str(_accepted(tmp_path / "none.csv")))
    assert status == 2 and "findings 5, remarks 2: accepted 0, open 7\nINCOMPLETE: " in page
    assert "no open findings" not in page
    assert ACCEPTED not in page
    (tmp_path / "bad.csv").write_text("rule\n")
    assert (
        cli.main(["report", str(LINE), "--html", str(tmp_path / "x.html"), "--accepted", str(tmp_path / "bad.csv")])
        == 2
    )
    assert "row 1: no column nid_c" in capsys.readouterr().err and not (tmp_path / "x.html").exists()


def test_findings_of_one_cause_are_one_entry(tmp_path: Path) -> None:
    """In the list of findings and in the group's block, with all lines of the program, under the urgency."""
    rows = [
        {"group": "A<b>", "aspect": aspect, "telegram": text}
        for aspect in ("red", "yellow", "green")
        for text in (SECOND, FIRST)
    ]
    table = _table(tmp_path / "t.csv", *rows)
    _, page = _report(table, tmp_path / "r.html")
    listed = _between(page, PROGRAM, "<h2>Groups and messages</h2>")
    assert re.findall('<h4 class="several"><bdi>(.*)</bdi></h4>', page) == ["at worst wrong information:"]
    assert page.count("look exchanged") == 2 and "12 findings of 1 cause: F1 6, F4 6; " in listed
    assert listed.count("position wrong</span>") == 6 and page.count("position wrong</span>") == 12
    some = [
        {"nid_c": "1", "nid_bg": "1", "rule": "F1", "aspect": aspect, "balise": balise, "sha256": digest([text])}
        for aspect in ("red", "yellow")
        for balise, text in (("0", SECOND), ("1", FIRST))
    ]
    _, page = _report(table, tmp_path / "r.html", "--accepted", str(_accepted(tmp_path / "a.csv", *some)))
    still_open, accepted = _between(page, PROGRAM, RULES), _between(page, ACCEPTED, PAPERS)
    assert (still_open.count("position wrong</span>"), accepted.count("position wrong</span>")) == (2, 4)
    assert (still_open.count("look exchanged"), accepted.count("look exchanged")) == (2, 1)


def test_a_yes_and_an_empty_refusal(tmp_path: Path) -> None:
    """A table without findings, and one of which nothing can be read."""
    status, page = _report(_table(tmp_path / "t.csv", {"group": "A", "telegram": HEADER}), tmp_path / "r.html")
    assert status == 0 and "program: &#34;yes: groups 1, messages 0&#34;" in page
    status, page = _report(_table(tmp_path / "t.csv", {"group": "A", "telegram": "a1" * 27}), tmp_path / "r.html")
    assert status == 2 and "INCOMPLETE: 1 of 1 telegrams refused" in page and "yes: groups" not in page


def test_names_do_no_harm(tmp_path: Path) -> None:
    """A name is text: no tag, no attribute and no control character comes of it, in a page and in a picture."""
    name = HOSTILE.replace("\x1b", "").replace("\x07", "")
    table = _table(tmp_path / "t.csv", {"group": name, "name": name, "aspect": name, "telegram": HEADER})
    _, page = _report(table, tmp_path / "r.html")
    seen = _Page(page)
    assert {tag for tag, _ in seen.tags} <= TAGS
    assert {name for _, attributes in seen.tags for name in attributes} <= ATTRIBUTES
    assert page.count("<script") == 1 and "\u202e" not in page and "<script>alert(1)</script>" in "".join(seen.texts)
    assert cli.main(["draw", str(table), "--group", name, "--svg", str(tmp_path / "a.svg")]) == 0
    ElementTree.parse(tmp_path / "a.svg")


def test_nothing_half_written(tmp_path: Path) -> None:
    """A folder as a target, a group that is not there, a telegram that is refused: one line, a status, and no file."""
    table = _table(tmp_path / "t.csv", {"group": "A", "telegram": "a1" * 27})
    assert cli.main(["report", str(table), "--html", str(tmp_path)]) == 3
    assert cli.main(["draw", str(table), "--group", "B", "--svg", str(tmp_path / "a.svg")]) == 2
    assert cli.main(["draw", str(table), "--group", "A", "--svg", str(tmp_path / "a.svg")]) == 2
    assert sorted(os.listdir(tmp_path)) == ["t.csv"]


@pytest.mark.parametrize("package", ["jinja2", "markupsafe"])
def test_without_jinja2(
    package: str, tmp_path: Path, monkeypatch: pytest.MonkeyPatch, capsys: pytest.CaptureFixture[str]
) -> None:
    """`draw` and `report` say which package is missing, and leave no file."""
    modules: Dict[str, Any] = sys.modules
    monkeypatch.setitem(modules, package, None)
    assert cli.main(["draw", str(LINE), "--group", "Signal A", "--svg", str(tmp_path / "a.svg")]) == 3
    assert cli.main(["report", str(LINE), "--html", str(tmp_path / "r.html")]) == 3
    lines = capsys.readouterr().err.splitlines()
    said = "balisekit: a picture or a page needs jinja2, which "
    assert len(lines) == 2 and all(line.startswith(said) for line in lines)
    assert all("sudo apt-get install python3-jinja2" in line for line in lines)
    assert not os.listdir(tmp_path)


def _titles(path: Path) -> List[str]:
    return [one.text or "" for one in ElementTree.parse(path).iter("{http://www.w3.org/2000/svg}title")]


def test_a_gap_has_its_length(tmp_path: Path) -> None:
    """F11 and F13 of the documents of examples, as red gaps."""
    picture = tmp_path / "a.svg"
    for name, rule, wanted in (
        ("gradient-short", 11, "F11: 10 m are missing"),
        ("speed-profile-short", 13, "F13: 50 m are missing"),
    ):
        document = json.loads((TOP / "examples" / "check" / f"{name}.json").read_text())
        rows = [{"group": "A", "km": "1.000", "telegram": text} for text in document["groups"][0]["balises"]]
        words = ["draw", str(_table(tmp_path / "t.csv", *rows)), "--group", "A", "--force", "--svg", str(picture)]
        assert cli.main(words) == 0
        titles = _titles(picture)
        assert any(title.startswith(wanted) for title in titles), titles
        mended = json.loads((TOP / "examples" / "check" / f"{name}-mended.json").read_text())
        _table(tmp_path / "t.csv", *({"group": "A", "telegram": text} for text in mended["groups"][0]["balises"]))
        assert cli.main(words) == 0
        assert not any("missing" in title for title in _titles(picture))


def test_one_aspect_of_a_group(tmp_path: Path, capsys: pytest.CaptureFixture[str]) -> None:
    """Only the row of this aspect, with its findings. A name that is no aspect is refused."""
    words = ["draw", str(LINE), "--group", "Signal E", "--force", "--svg", str(tmp_path / "e.svg"), "--aspect"]
    for aspect, missing in (("red", 0), ("yellow", 0), ("green", 1)):
        assert cli.main([*words, aspect]) == 0
        texts = [one.text for one in ElementTree.parse(tmp_path / "e.svg").iter("{http://www.w3.org/2000/svg}text")]
        assert [text for text in texts if text and text.startswith("aspect ")] == [f'aspect "{aspect}"']
        assert sum("F11" in title for title in _titles(tmp_path / "e.svg")) == missing
    before = (tmp_path / "e.svg").read_bytes()
    table = str(_table(tmp_path / "t.csv", {"group": "A", "telegram": HEADER}))
    assert cli.main([*words, "gren"]) == cli.main(["draw", table, *words[2:3], "A", "--aspect", "red"]) == 2
    assert cli.main(["draw", table, "--message", "1", "--aspect", "red"]) == 2
    assert capsys.readouterr().err.splitlines() == [
        'balisekit: group "Signal E" has no aspect "gren": its aspects are "red", "yellow", "green"',
        'balisekit: group "A" has no aspect "red": what it sends is for every aspect',
        "balisekit: --aspect is not used with --message",
    ]
    assert (tmp_path / "e.svg").read_bytes() == before


def _profile(direction: int, *elements: Tuple[int, int]) -> Any:
    return {
        "nid_packet": 27,
        "q_dir": direction,
        "q_scale": 1,
        "elements": [
            {"d_static": distance, "v_static": value, "q_front": 0, "differences": []} for distance, value in elements
        ],
    }


def test_reverse_is_the_mirror_image() -> None:
    """The same profile in both directions: to the right, and as far to the left."""
    form: Form = {"m_dup": 0, "packets": [_profile(2, (0, 20), (1000, 127))]}
    shapes = [one for one in draw("A", [PictureRow("", [form])], Kilometres()).shapes if one.style == "speed"]
    right, left = sorted(shapes, key=lambda one: float(one.x), reverse=True)
    assert abs(float(right.width) - float(left.width)) < 0.2
    assert abs(float(left.x) + float(left.width) - float(right.x)) < 0.2
    assert "nominal" in right.title and "reverse" in left.title


def test_open_profiles_and_their_beginning() -> None:
    """An arrow in place of a bar; the track before the first element is marked."""
    form: Form = {"m_dup": 0, "packets": [_profile(1, (50, 20), (1000, 10))]}
    looks = [one.style for one in draw("A", [PictureRow("", [form])], Kilometres()).shapes]
    assert "arrow" in looks and "none" in looks and "endmark" not in looks and "step open" in looks


def _messages(path: Path, *forms: Dict[str, Any]) -> Path:
    texts = [one.line for one in Program.find().encode(forms, radio=True)]
    assert not any(text.startswith("refused") for text in texts), texts
    path.write_text("".join(f"{text};to train {place}\n" for place, text in enumerate(texts)))
    return path


def _movement(group: int, *packets: Dict[str, Any]) -> Dict[str, Any]:
    """A message 3 with an authority of 2,000 m, and these packets."""
    authority = {
        "nid_packet": 15,
        "q_dir": 1,
        "q_scale": 1,
        "end_speed": 0,
        "end_timeout": 1023,
        "sections": [],
        "l_endsection": 2000,
    }
    return {
        "nid_message": 3,
        "t_train": 100,
        "m_ack": 0,
        "nid_c": 352,
        "nid_bg": group,
        "packets": [*packets, authority],
    }


def test_messages_are_drawn_and_shown(tmp_path: Path, capsys: pytest.CaptureFixture[str]) -> None:
    """Places count from the group of NID_LRBG: in kilometres if the table has one group with that identity."""
    messages = _messages(tmp_path / "m.txt", _movement(101, _profile(1, (0, 20), (1500, 127))), _movement(9))
    position = (TOP / "examples" / "radio-position-report.txt").read_text().strip()
    messages.write_text(messages.read_text() + f"{position};position\n0304;cut\n")
    words = ["--messages", str(messages)]
    _, page = _report(LINE, tmp_path / "r.html", *words)
    text = "".join(_Page(page).texts)
    assert "its places count from rows 2 to 5  Signal A  km 12.300" in text
    assert "F13: 500 m are missing, from 1500 m, km 13.800 to 2000 m, km 14.300, nominal" in text
    assert "D_LRBG 500 m [500]" in text and "F13 message 0 packet 0 nominal: speed profile short" in text
    sections = page.split('<section class="group" id="m')[1:]
    assert [section.count("<figure") for section in sections] == [1, 1, 0, 0]
    assert "km " not in sections[1] and "metres from the group of NID_LRBG (NID_C 352, NID_BG 9)" in sections[1]
    assert cli.main(["draw", str(LINE), *words, "--message", "1", "--svg", str(tmp_path / "m.svg")]) == 2  # (row 26)
    assert any(title.startswith("F13: 500 m are missing") for title in _titles(tmp_path / "m.svg"))
    capsys.readouterr()
    cli.main(["show", str(LINE), *words])
    said = capsys.readouterr().out
    assert "end of the authority at 2000 m, km 14.300" in said and "= end of the authority at 2000 m;" in said


def test_an_authority_has_all_its_places() -> None:
    """Sections, end, danger point, overlap and supervised location, in both directions, with their numbers."""
    packet: Form = {
        "nid_packet": 12,
        "q_dir": 2,
        "q_scale": 1,
        "v_main": 24,
        "end_speed": 0,
        "end_timeout": 60,
        "sections": [{"l_section": 800}],
        "l_endsection": 900,
        "danger_point": {"d_dp": 60, "v_releasedp": 5},
        "overlap": {"d_startol": 100, "t_ol": 30, "d_ol": 120, "v_releaseol": 126},
    }
    form: Form = {"m_dup": 0, "packets": [packet]}
    picture = draw("A", [PictureRow("", [form])], Kilometres(Decimal(10), 1))
    titles = {one.title for one in picture.shapes if one.title}
    for direction, along in (("nominal", 1), ("reverse", -1)):

        def km(metres_along: int, more: str = "") -> str:
            return f"{metres_along} m, km {10 + along * Decimal(metres_along) / 1000:.3f}{more}, {direction}"

        assert titles >= {
            f"section 0: 800 m, to {km(800)}",
            f"end section: 900 m, to {km(1700)}",
            f"danger point: {km(1760)}",
            f"overlap: 120 m, to {km(1820, ' (SvL)')}",
        }
    texts = [one.text for one in picture.shapes]
    said = "V_MAIN 120 km/h; V_LOA 0 km/h, stop"
    assert [text for text in texts if "V_LOA" in text] == [f"nominal: {said}", f"reverse: {said}"]
    for words in (
        "end 1700 m",
        "danger point 1760 m, release speed 25 km/h",
        "overlap to 1820 m, release speed calculated on board; SvL",
    ):
        assert texts.count(words) == 2


def test_a_link_with_a_remark_has_a_mark_in_the_picture_of_its_group(tmp_path: Path) -> None:
    """A ring with the rule and the sum of D_LINK, in the group that sends it. Accepted ones have none."""
    table = TOP / "examples" / "links" / "distance-differs.csv"
    _, page = _report(table, tmp_path / "r.html")
    (figure,) = [one for one in page.split("<figure")[1:] if "<g class=links>" in one]
    assert figure.startswith(' class="wide" id="pg0">') and ">L2: 1010 m by D_LINK</text>" in figure
    assert figure.count("B (km 11.000) is 1010 m from A (km 10.000) by D_LINK") == 1


@pytest.mark.parametrize("length", [1, 300, 2000, 9000])
@pytest.mark.parametrize("direction", [0, 1, 2])
def test_texts_are_within_the_picture(length: int, direction: int, tmp_path: Path) -> None:
    """Whatever is found missing, and whatever is short: no text is cut off at an edge."""
    long: Dict[str, Any] = {
        "nid_packet": 15,
        "q_dir": direction,
        "q_scale": 1,
        "end_speed": 0,
        "end_timeout": 1023,
        "sections": [],
        "l_endsection": 9000,
    }
    forms = [
        {**_movement(9), "packets": [{**long, "l_endsection": length}]},
        {**_movement(9), "packets": [long, _profile(direction, (0, 20), (9000 - length, 127))]},
    ]
    messages = _messages(tmp_path / "m.txt", *forms)
    for line in ("1", "2"):
        words = ["--messages", str(messages), "--message", line, "--svg", str(tmp_path / f"{line}.svg")]
        assert cli.main(["draw", str(LINE), *words]) == 2  # (row 26 is refused)
        assert not faults(tmp_path / f"{line}.svg")


def test_two_groups_with_one_identity_give_a_message_no_kilometres(tmp_path: Path) -> None:
    """Nobody knows which of them it is."""
    form = json.loads((TOP / "examples" / "header-only.json").read_text())
    texts = [one.line for one in Program.find().encode([{**form, "nid_c": 352, "nid_bg": 7}])]
    table = _table(
        tmp_path / "t.csv",
        {"group": "A", "km": "1.000", "telegram": texts[0]},
        {"group": "B", "km": "2.000", "telegram": texts[0]},
    )
    _, page = _report(table, tmp_path / "r.html", "--messages", str(_messages(tmp_path / "m.txt", _movement(7))))
    assert "km " not in page.split('<section class="group" id="m')[1]


@pytest.mark.parametrize(
    "words, said",
    [
        (["--message", "1"], "--message needs --messages FILE"),
        (["--message", "9", "--messages", "M"], "line 9 of M has no message"),
        (
            ["--message", "1", "--messages", "M"],
            "message of line 1: L_MESSAGE is 18, but the message has 17 bytes: " "program: length at 8 end 18",
        ),
        (["--message", "2", "--messages", "M"], "message of line 2: it has no authority, gradient or speed profile"),
    ],
)
def test_messages_that_cannot_be_drawn(
    words: List[str], said: str, tmp_path: Path, capsys: pytest.CaptureFixture[str]
) -> None:
    """One line, status 2, and no file."""
    position = (TOP / "examples" / "radio-position-report.txt").read_text().strip()
    messages = tmp_path / "m.txt"
    messages.write_text(f"{MESSAGE[:-2]}\n{position}\n")
    named = [str(messages) if word == "M" else word for word in words]
    assert cli.main(["draw", str(LINE), *named, "--svg", str(tmp_path / "m.svg")]) == 2
    assert capsys.readouterr().err == f"balisekit: {said.replace(' M ', f' {messages} ')}\n"
    assert sorted(os.listdir(tmp_path)) == ["m.txt"]


def test_the_order_of_the_page(tmp_path: Path) -> None:
    """Overview, track, findings by family, groups, and what a yes means, to which the cover has a link."""
    _, page = _report(LINE, tmp_path / "r.html")
    own = "by balisekit&#39;s own rules"
    parts = [
        "What was left out",
        "Findings of the program, proved",
        f"Links, {own} L1 to L9, not proved",
        f"Remarks on what the data mean, {own}, not proved",
        "Findings that correct data can get; check each",
        "What the rules say",
    ]
    chapters = ["Overview", "The track", "Findings and remarks", "Groups and messages", "What a yes means"]
    assert re.findall("<h2[^>]*>(.+?)</h2>", page) == [*chapters, "Checksums and versions"]
    assert re.findall("<h3[^>]*>(.+?)</h3>", page)[: len(parts)] == parts and page.count('id="yes"') == 1
    texts = ('<a href="#yes">', '<div class="finding expected"><a href="#pg', 'id="yes"')
    assert sorted(texts, key=page.index) == list(texts)


def test_a_list_is_a_list(tmp_path: Path) -> None:
    """What a yes means has four lists, without the document's hyphens."""
    _, page = _report(_table(tmp_path / "t.csv", {"group": "A", "telegram": HEADER}), tmp_path / "r.html")
    said = page.split("<h2>What a yes means")[1].split("<h3>")[0]
    items = re.findall(r"<li>(.+?)</li>", said)
    assert len(items) == 21 and items[0].startswith("In each aspect of each group, positions, totals")
    assert said.count("<ul>") == 4 and not re.search(r">\s*- ", said)


@pytest.mark.parametrize(
    "name, words", [("line-show.txt", ["show", "LINE"]), ("signal-e.svg", ["draw", "LINE", "--group", "Signal E"])]
)
def test_outputs_beside_the_example(name: str, words: List[str], capfdbinary: pytest.CaptureFixture[bytes]) -> None:
    """What `show` and `draw` write for the example is what the files beside it contain."""
    cli.main([str(LINE) if word == "LINE" else word for word in words])
    said, stored = capfdbinary.readouterr().out.decode(), LINE.with_name(name).read_text("utf-8")
    assert without_program(said) == without_program(stored)


def test_the_report_beside_the_example(tmp_path: Path, monkeypatch: pytest.MonkeyPatch) -> None:
    """It is what `report` writes on that day, except for versions, checksums and paths of the programs."""
    monkeypatch.setenv("SOURCE_DATE_EPOCH", "1795910400")  # 2026-11-29
    monkeypatch.chdir(TOP)
    pages = _report(LINE.relative_to(TOP), tmp_path / "r.html")[1], LINE.with_name("report.html").read_text("utf-8")
    now, kept = (re.sub(r'(<th scope="row">(?:program|balisekit).*?</th>).*', r"\1", page) for page in pages)
    assert now == kept


@pytest.mark.uncovered
def test_any_name_makes_a_picture() -> None:
    """A picture with any characters as its names is well formed, and has no tag of theirs. Where a name is shortened
    it is the title of that text."""
    hypothesis = pytest.importorskip("hypothesis")
    strategies = hypothesis.strategies
    plain = [one.tag for one in ElementTree.fromstring(_svg("A")).iter()]
    svg = plain[0][: -len("svg")]

    def tried(name: str) -> None:
        root = ElementTree.fromstring(_svg(name))
        for text in root.iter(f"{svg}text"):
            for title in text.findall(f"{svg}title"):
                assert str(text.text).endswith("\u2026") and title.text == root.findtext(f"{svg}title")
                text.remove(title)
        assert [one.tag for one in root.iter()] == plain

    any_name = hypothesis.given(strategies.text(strategies.characters(blacklist_categories=())))(tried)
    hypothesis.example("<title>" * 100)(any_name)()


def _svg(name: str) -> str:
    picture = draw(
        name, [PictureRow(name, [{"m_dup": 0, "packets": [_profile(1, (0, 20), (1000, 127))]}])], Kilometres()
    )
    return "".join(pieces("group.svg", ["picture.css"], picture=picture))


def test_places_of_remarks_are_marked(tmp_path: Path) -> None:
    """E2 at the group, E9 at both ends of authority, E18 at the level transition."""
    for name, marks in (("E2", ["E2: 0 m"]), ("E9", ["E9: 1500 m", "E9: 3000 m"]), ("E18", ["E18: 2250 m"])):
        _, page = _report(TOP / f"examples/meaning/mistakes/{name}.csv", tmp_path / "r.html", "--only", "E")
        assert sorted(re.findall(rf">({name}: [0-9]+ m)<", page)) == marks, name


def test_a_jump_that_is_stated_is_no_wrong_link_in_pictures(run: Run, tmp_path: Path) -> None:
    """Also if rules L are not applied: pictures show links in any case."""
    rows = (TOP / "examples" / "links" / "line.csv").read_text("utf-8")
    (tmp_path / "t.csv").write_text(re.sub(r",1[23]([.]\d+),", lambda km: f",2{km[0][2:]}", rows), "utf-8")
    pages = []
    for text in ("", "jumps = 'j.csv'\n"):
        (tmp_path / "balisekit.toml").write_text(f"[check]\n{text}", "utf-8")
        (tmp_path / "j.csv").write_text("km,km_after\n11.5,21.5\n", "utf-8")
        run("report", tmp_path / "t.csv", "--only", "F", "--html", tmp_path / "r.html", "--force")
        pages.append((tmp_path / "r.html").read_text("utf-8"))
    assert ["L2: " in page for page in pages] == [True, False]
