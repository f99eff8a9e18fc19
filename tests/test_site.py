"""The site that mkdocs makes of all pages: its links, its layout in a browser, and each list, block and table."""
import html
import http.server
import json
import queue
import re
import shutil
import subprocess
import threading

import pytest

import readability
from runner import TOP, Answer, run

BLOCK = re.compile(r'(?s)<div class="col-md-9" role="main">(.*?)<footer')
TOKENS = re.compile(r'<(/?)(ol|ul|li|pre|table)\b(?:[^>]*? start="(\d+)")?')
WIDTHS = 390, 1280
"""Of the window of a telephone, and of that of a small screen, in pixels."""
MEASURED = """<body><script>
const wide = [];
const load = (page, width) => new Promise((done) => {
    const frame = document.createElement("iframe");
    frame.style.cssText = `border: 0; height: 900px; width: ${width}px`;
    frame.onload = () => {
        const root = frame.contentDocument.documentElement;
        if (root.scrollWidth > width || root.clientWidth < width - 20) wide.push([page, width, root.scrollWidth]);
        frame.remove();
        done();
    };
    frame.src = "/" + page;
    document.body.append(frame);
});
(async () => {
    for (const width of WIDTHS) for (const page of PAGES) await load(page, width);
    await fetch("/", {method: "POST", body: JSON.stringify(wide)});
})();
</script>"""


@pytest.fixture(scope="module")
def site(tmp_path_factory):
    """The folder of the site. The pages that it was made of are in `pages` beside it."""
    if not shutil.which("mkdocs"):
        pytest.skip("the site of the pages (mkdocs)")
    folder = tmp_path_factory.mktemp("made") / "a site"
    words = "build", "--quiet", "--strict", "--site-dir", folder
    assert run(words, path="mkdocs", cwd=TOP, timeout=None) == Answer(0, "", "")
    (folder / "404.html").unlink()
    return folder


def pages_of(site):
    """The texts of the pages that mkdocs made. (The script of a report of balisekit unpacks what its links lead to.)"""
    every = (path for path in sorted(site.rglob("*.html")) if not (TOP / path.relative_to(site)).is_file())
    return {path: path.read_text("utf-8") for path in every}


@pytest.mark.slow
@pytest.mark.xdist_group("site")
def test_links(site):
    """Each link leads to a page and a heading, nothing is fetched from a network, and the search knows each page."""
    texts, pages = {path: path.read_text("utf-8") for path in site.rglob("*.html")}, pages_of(site)
    places = {path: {"", *re.findall(r'\bid="([^"]+)"', text)} for path, text in texts.items()}
    for path, text in pages.items():
        for link in re.findall(r'<a\b[^>]*? href="(?![a-z]+:|#")([^"]+)"', html.unescape(text)):
            name, _, place = link.partition("#")
            target = (path.parent / name).resolve() if name else path
            assert target.exists() and place in places.get(target, {place}), (path, link)
    tag = r'<(?:link(?![^>]* rel="canonical")|script|img|iframe)\b[^>]*? (?:href|src)='
    for path in (*texts, *site.rglob("*.css")):
        assert not re.search(rf"(?:{tag}|@import|url\()\s*[\"']?(?:https?:)?//", path.read_text("utf-8")), path
    found = (site / "search/search_index.json").read_text("utf-8")
    assert "supervised location" in found and all(f'"{path.relative_to(site)}"' in found for path in pages)


def shape(source):
    """The items of a page in Markdown: the number of each, or `-`; and how many blocks of code and tables it has."""
    text = readability.FENCED.sub("", source)
    items = re.findall(r"(?m)^ *(?:(\d+)\.|[-*]) ", text)
    return [each or "-" for each in items], len(readability.FENCED.findall(source)), len(re.findall(r"(?m)^\| *-", text))


def rendered(page):
    """The same of the page that mkdocs made."""
    (body,) = BLOCK.findall(page)
    items, lists = [], []
    for end, tag, start in TOKENS.findall(body):
        if tag in ("ol", "ul"):
            lists = lists[:-1] if end else [*lists, int(start or 1) if tag == "ol" else None]
        elif tag == "li" and not end:
            items.append("-" if lists[-1] is None else str(lists[-1]))
            lists[-1:] = [lists[-1] and lists[-1] + 1]
    return items, body.count("<pre>"), body.count("<table>")


@pytest.mark.xdist_group("site")
def test_lists_blocks_and_tables(site):
    """A page of the site has each item with its number, each block of commands and each table of its source."""
    room = site.with_name("pages")
    for path, text in pages_of(site).items():
        name = path.relative_to(site).with_suffix(".md")
        source = next(it for it in (room / name, room / name.with_name("README.md")) if it.is_file())
        assert rendered(text) == shape(source.read_text("utf-8")), name
        assert "```" not in re.sub(r"(?s)<(pre|code)\b.*?</\1>", "", text), name


def test_a_list_that_starts_anew():
    """Its numbers, and a block that is text, differ from those of the source."""
    source = "1. a\n\n```sh\nb\n```\n\n2. c\n- d\n"
    page = '<div class="col-md-9" role="main"><ol><li>a</li></ol><pre>b</pre><ol><li>c</li></ol><ul><li>d</ul><footer'
    assert shape(source) == (["1", "2", "-"], 1, 0) and rendered(page) == (["1", "1", "-"], 1, 0)


class Handler(http.server.SimpleHTTPRequestHandler):
    """Serves a folder, and takes what the browser measured."""

    sent = queue.Queue()

    def do_POST(self):
        """Takes it."""
        self.sent.put(json.loads(self.rfile.read(int(self.headers["Content-Length"]))))
        self.send_response(204)
        self.end_headers()

    def log_message(self, *_):
        """Nothing on standard error."""


@pytest.mark.slow
@pytest.mark.xdist_group("site")
def test_no_page_scrolls_sideways(site, tmp_path):
    """In a wide window and on a telephone: only tables and blocks of code do, by themselves."""
    if not shutil.which("chromium"):
        pytest.skip("the site in a browser (chromium)")
    pages = json.dumps([str(path.relative_to(site)) for path in pages_of(site)])
    (site / "measured.html").write_text(MEASURED.replace("WIDTHS", str([*WIDTHS])).replace("PAGES", pages), "utf-8")
    served = http.server.ThreadingHTTPServer(("127.0.0.1", 0), lambda *it: Handler(*it, directory=str(site)))
    with served as server:
        threading.Thread(target=server.serve_forever, daemon=True).start()
        words = ("--headless", "--no-sandbox", "--disable-gpu", "--disable-dev-shm-usage", "--remote-debugging-port=0",
                 f"--user-data-dir={tmp_path}", "--host-resolver-rules=MAP * ~NOTFOUND, EXCLUDE 127.0.0.1")
        address = f"http://127.0.0.1:{server.server_port}/measured.html"
        with subprocess.Popen(["chromium", *words, address], stderr=subprocess.DEVNULL) as browser:
            try:
                wide = Handler.sent.get(timeout=200)
            finally:
                browser.terminate()
        server.shutdown()
    (site / "measured.html").unlink()
    assert wide == []
