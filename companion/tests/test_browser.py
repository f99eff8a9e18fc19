"""The report in a real browser: no error on its console, no request, a page and a print with all of it."""
from __future__ import annotations

import html
import http.server
import json
import queue
import re
import shutil
import subprocess
import threading
from itertools import islice
from pathlib import Path
from typing import Any, List, NamedTuple, Tuple

import pytest
from cases_of_program import TOP

from balisekit.cli import main as cli

CHROMIUM = shutil.which("chromium")
pytestmark = pytest.mark.skipif(CHROMIUM is None, reason="tests of balisekit in a browser (chromium)")
LINE = TOP / "examples" / "table" / "line.csv"
PICTURES = Path(__file__).with_name("pictures")


def browse(room: Path, page: Path, *words: str, place: str = "") -> "subprocess.CompletedProcess[str]":
    """Opens the page, or a place of it, in a profile of its own, without a network."""
    command: List[str] = [
        str(CHROMIUM),
        "--headless",
        "--no-sandbox",
        "--disable-gpu",
        "--disable-dev-shm-usage",
        f"--user-data-dir={room / 'profile'}",
        "--host-resolver-rules=MAP * ~NOTFOUND",
        "--enable-logging=stderr",
        "--hide-scrollbars",
        *words,
        page.as_uri() + place,
    ]
    return subprocess.run(command, capture_output=True, text=True, timeout=300, check=True)


@pytest.fixture(scope="module")
def page(tmp_path_factory: pytest.TempPathFactory) -> Path:
    """The report on the example."""
    path = tmp_path_factory.mktemp("report") / "report.html"
    assert cli.main(["report", str(LINE), "--html", str(path)]) == 2
    return path


def print_to(path: Path) -> Tuple[str, ...]:
    """The words that have a browser print the page."""
    return "--no-pdf-header-footer", f"--print-to-pdf={path}"


@pytest.fixture(scope="module")
def dumped(page: Path) -> "subprocess.CompletedProcess[str]":
    """The page as a browser has it, and the browser's messages about it. Its picture and its print are beside it."""
    words = "--dump-dom", "--window-size=1100,1400", f"--screenshot={page.with_suffix('.png')}"
    return browse(page.parent, page, *words, *print_to(page.with_suffix(".pdf")))


def test_the_console_is_empty(dumped: "subprocess.CompletedProcess[str]") -> None:
    """No error, and no style or script that the page's policy refuses; the page is there as a whole."""
    assert "CONSOLE" not in dumped.stderr
    assert "Report on balise telegrams" in dumped.stdout and dumped.stdout.count('<section class="group"') == 9


@pytest.mark.usefixtures("dumped")
def test_a_screenshot(page: Path) -> None:
    """The window is not empty."""
    assert page.with_suffix(".png").stat().st_size > 50_000


def pages_of(printed: Path) -> int:
    """How many pages a print has."""
    return len(re.findall(rb"/Type ?/Page\b", printed.read_bytes()))


@pytest.mark.usefixtures("dumped")
def test_a_print(page: Path, tmp_path: Path) -> None:
    """The print has pages of A4. The print of a full report has all groups and telegrams."""
    full = tmp_path / "full.html"
    assert cli.main(["report", str(LINE), "--html", str(full), "--full"]) == 2
    browse(tmp_path, full, *print_to(full.with_suffix(".pdf")))
    few, many = (pages_of(each.with_suffix(".pdf")) for each in (page, full))
    assert 3 <= few <= 10 and many >= few + 8


FOLLOWED = """<img src="http://127.0.0.1:PORT/"><script>
const steps = ["#pg5", "#found", "#r23p1", "#found", "#r15p1", "#yes"], tops = [];
let frames = 0;
function frame() {
  if (++frames % 20 === 0) {
    if (location.hash) tops.push(document.querySelector(":target").getBoundingClientRect().top);
    if (!steps.length) return navigator.sendBeacon("http://127.0.0.1:PORT/", JSON.stringify(tops));
    document.querySelector(`a[href="${steps.shift()}"]`).click();
  }
  requestAnimationFrame(frame);
}
frame();
</script></body>"""
"""A step each 20 frames. The page is loaded as soon as the picture comes, for which it waits until all are done."""


class Handler(http.server.BaseHTTPRequestHandler):
    """Takes what the page sends, and gives the picture only then."""

    tops: "queue.Queue[List[float]]"

    def do_GET(self) -> None:
        self.tops.put(self.tops.get(timeout=200))
        self.send_error(404)

    def do_POST(self) -> None:
        self.tops.put(json.loads(self.rfile.read(int(self.headers["Content-Length"]))))
        self.send_response(204)
        self.end_headers()

    def log_message(self, format: str, *args: object) -> None:
        """Nothing on standard error."""


def test_links_lead_to_their_places(page: Path, tmp_path: Path) -> None:
    """From a finding to its picture, back to the findings, and to the packet in a folded telegram: each is seen.

    Sections that are shown for the first time, and the button of a telegram that was opened, move it a little.
    """
    Handler.tops = queue.Queue()
    with http.server.ThreadingHTTPServer(("127.0.0.1", 0), Handler) as server:
        threading.Thread(target=server.serve_forever, daemon=True).start()
        text = re.sub('<meta http-equiv="Content-Security-Policy"[^>]*>', "", page.read_text("utf-8"))
        followed = FOLLOWED.replace("PORT", str(server.server_port))
        (tmp_path / "page.html").write_text(text.replace("</body>", followed), "utf-8")
        words = "--dump-dom", "--window-size=1100,900", "--host-resolver-rules=MAP * ~NOTFOUND, EXCLUDE 127.0.0.1"
        browse(tmp_path, tmp_path / "page.html", *words)
        server.shutdown()
    tops = Handler.tops.get(timeout=1)
    assert len(tops) == 6 and all(40 <= top < 200 for top in tops), tops


SORTED = """
const button = [...document.querySelectorAll("thead button")].find((each) => each.textContent === "%s");
for (let click = 0; click < %d; click++) button.click();
"""
TYPED = """
const [text, only] = document.querySelectorAll(".search input");
text.value = "%s"; text.dispatchEvent(new Event("input"));
if (%s) only.click();
"""
ALL = ["A", "B", "C", "Infill", "D", "E", "F", "G", "H"]
OVERVIEWS: List[Tuple[str, List[str]]] = [
    ("", ALL),
    (SORTED % ("km", 2), ALL[::-1]),
    (SORTED % ("findings", 1), ["E", "C", "Infill", "F", "A", "B", "D", "G", "H"]),
    (SORTED % ("group", 1), ["Infill", "A", "B", "C", "D", "E", "F", "G", "H"]),
    (TYPED % ("signal 352/104", "false"), ["D"]),
    (TYPED % ("", "true"), ["C", "Infill", "E", "F"]),
    (TYPED % ("nothing", "false"), []),
]
"""Steps of a user, and the groups that are shown after them."""
WIDTHS = [500, 800, 1400]
PLACES = ["#r3", "#r23p1"]
"""A row, and a packet within another one."""
OPENED = """
setTimeout(() => parent.postMessage([%d, document.body.innerHTML], "*"), 300);
"""
"""Telegrams get their buttons after they have been opened."""
PRINTED = """
const looks = (selector, name) => [...document.querySelectorAll(selector)].map((one) => getComputedStyle(one)[name]);
parent.postMessage([%d,
  looks("details[open] button", "display"), looks("#papers", "breakInside"), looks("#yes p:has(+ ul)", "breakAfter"),
], "*");
"""
SAYS = """
const remarks = [...document.querySelectorAll("thead th")].find((each) => each.textContent === "remarks");
document.querySelector("#found").scrollIntoView();
const [bar, head] = ["nav", "#found h2"].map((each) => document.querySelector(each).getBoundingClientRect());
const edges = [document.documentElement.scrollWidth, innerWidth, remarks.getBoundingClientRect().right];
edges.push(head.top - Math.max(bar.bottom, 0));
parent.postMessage([%d, ...edges, document.body.innerHTML], "*");
"""
HEARS = """
const said = {};
onmessage = ({data}) => { said[data[0]] = data; document.title = JSON.stringify(said); };
"""


class Frames(NamedTuple):
    """What a browser with a frame for each copy of the page has."""

    overviews: List[Any]
    """How wide each page, its window, and its overview up to the remarks are, and its body: after a user's steps."""
    widths: List[Any]
    """The same in windows of each width."""
    places: List[List[str]]
    """The body at each place."""
    printed: List[List[str]]
    """What a print would look like."""
    console: str


@pytest.fixture(scope="module")
def frames(page: Path, tmp_path_factory: pytest.TempPathFactory) -> Frames:
    """One browser has all copies. The policy of the page would refuse their scripts, and only the last one keeps it."""
    room = tmp_path_factory.mktemp("frames")
    kept = page.read_text("utf-8")
    text = re.sub('<meta http-equiv="Content-Security-Policy"[^>]*>', "", kept)
    shown = [
        *((text, steps + SAYS, 1100, "") for steps, _ in OVERVIEWS),
        *((text, SAYS, width, "") for width in WIDTHS),
        *((text, OPENED, 1100, place) for place in PLACES),
        (text.replace("@media print", "@media all"), PRINTED, 1100, ""),
        (kept, SAYS, 1100, ""),
    ]
    whole = f"<title></title><script>{HEARS}</script>"
    for index, (copy, script, width, place) in enumerate(shown):
        (room / f"{index}.html").write_text(
            copy.replace("</body>", f"<script>{{{script % index}}}</script></body>"), "utf-8"
        )
        whole += f'<iframe src="{index}.html{place}" width="{width}" height="900" style="border: 0"></iframe>'
    (room / "whole.html").write_text(whole, "utf-8")
    seen = browse(room, room / "whole.html", "--dump-dom", "--virtual-time-budget=5000")
    (title,) = re.findall("<title>(.+?)</title>", seen.stdout)
    said = iter([each[1:] for _, each in sorted(json.loads(html.unescape(title)).items(), key=lambda one: int(one[0]))])
    counts = len(OVERVIEWS), len(WIDTHS), len(PLACES)
    overviews, widths, places = (list(islice(said, count)) for count in counts)
    (printed,) = said
    return Frames(overviews, widths, places, printed, seen.stderr)


def test_a_wrong_page_is_reported(frames: Frames) -> None:
    """The console is looked at: a script that the policy refuses is reported there."""
    assert "CONSOLE" in frames.console and "Content Security Policy" in frames.console


@pytest.mark.parametrize("index, place", enumerate(PLACES))
def test_what_is_folded_is_opened_at_its_place(
    frames: Frames, dumped: "subprocess.CompletedProcess[str]", index: int, place: str
) -> None:
    """A link to a row, or to a packet within it, opens its telegram, and a button to copy the digits appears."""
    row, (seen,) = place.split("p", maxsplit=1)[0][1:], frames.places[index]
    assert f'<details id="{row}">' in dumped.stdout
    opened = seen[seen.index(f'<details id="{row}" open="">') :]
    assert '<button type="button">copy the digits</button><pre>' in opened[:400]
    assert seen.count("copy the digits</button>") == 2, "of this row, and of the refused one"


def test_the_styles_of_a_print(frames: Frames) -> None:
    """No button is printed, and no page ends within the papers, or between a paragraph and its list."""
    assert frames.printed == [["none"], ["avoid"], ["avoid"] * 4]


@pytest.mark.parametrize("index", range(len(OVERVIEWS)))
def test_the_overview_is_sorted_and_searched(frames: Frames, index: int) -> None:
    """By the headings, as numbers where they are numbers, and by words; empty cells come last."""
    seen = frames.overviews[index][-1]
    body = seen[seen.index('id="overview"') : seen.index('id="tracks"')]
    rows = [row for row in re.findall("<tr.*?</tr>", body)[1:] if 'hidden=""' not in row]
    assert [re.findall("<bdi>(?:Signal )?([A-Za-z]+)", row)[0] for row in rows] == OVERVIEWS[index][1]


@pytest.mark.parametrize("index, width", enumerate(WIDTHS))
def test_nothing_is_wider_than_the_window(frames: Frames, index: int, width: int) -> None:
    """What is wider, as pictures and tables may be, is scrolled by itself. Findings and remarks are seen at once.

    A heading that a link leads to is not behind the links.
    """
    needed, there, remarks, below, _ = frames.widths[index]
    assert needed <= there and abs(there - width) <= 20 and remarks <= there
    assert 0 <= below < 60


def test_pictures_are_kept() -> None:
    """The pictures that were looked at. None is a large file.

    Of the report beside the example they are its first page at 1400 pixels, its track in dark mode at 800, a picture
    at 500 that a finding led to, and a page of its print. The others are its pictures and a report of `diff`.
    """
    kept = sorted(path.stem for path in PICTURES.glob("*.png"))
    assert kept == ["dark", "diff", "draw", "narrow", "page", "print", "track"]
    assert all(1_000 < path.stat().st_size <= 100_000 for path in PICTURES.glob("*.png"))
