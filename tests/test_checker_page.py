"""The page for browsers, balisecheck.html (scripts/page.py), in Chromium and Firefox: its answers beside those of the
program, hostile input, and requests."""
import json
import random
import re
import subprocess
import time

import pytest

from browsers import Chromium, Firefox
from checker_page import DOCUMENTS, ONLY_CHROMIUM, SHORT, STATUS, answered, choose, page, paste, saved, texts
from checker_page import a_tab, an_opened_tab  # noqa: F401 pylint: disable=unused-import # (fixtures)
from runner import TOP, run
from targets import MODULE, Call, answers, need
from workbooks import workbook

SECONDS = 0.5


# ---- the file


def test_same_bytes(tmp_path):
    """Two runs make the same bytes, in another folder and with another order of hashes. None is larger than 1.2 MB."""
    known = page().read_bytes()
    for name, seed in ("one", "1"), ("other", "2"):
        command = "env", "-C", tmp_path, f"PYTHONHASHSEED={seed}", TOP / "scripts/page.py", MODULE, name
        subprocess.run(command, check=True)
    one, other = ((tmp_path / name).read_bytes() for name in ("one", "other"))
    assert one == other == known and len(one) <= 1_200_000


def test_opens_without_a_request(tab):
    """It opens no connection: neither at the start, nor while it answers. Nothing is written to the console."""
    tab.open(page())
    assert paste(tab, (TOP / "examples/check/many-findings.json").read_text()).startswith("no: findings 8")
    assert paste(tab, SHORT).startswith("1 line: 1 read")
    assert texts(tab, "table") and tab.requests() == [] and tab.messages() == []


IN_WORKER = """new Promise((resolve) => {
    const text = "fetch('http://127.0.0.1:9/').then(() => 'sent', () => 'refused').then((it) => postMessage(it));";
    const worker = new Worker(URL.createObjectURL(new Blob([text], { type: "text/javascript" })));
    worker.onmessage = ({ data: said }) => resolve(said);
})"""


def test_a_request_would_be_seen(tmp_path):
    """The policy refuses a request that the page or a worker of it is made to send. The log has such a request, and one
    of a page without a policy."""
    path = page()
    with Chromium() as own:
        own.open(path)
        assert own.run("fetch('http://127.0.0.1:9/').then(() => 'sent', () => 'refused')") == "refused"
        own.run("new Image().src = 'http://127.0.0.1:9/picture'")
        assert own.run(IN_WORKER) == "refused"
        time.sleep(0.3)
        refused = json.dumps(own.messages())
        assert refused.count("Content Security Policy") >= 2 and "http://127.0.0.1:9/picture" in own.requests()
        (tmp_path / "other.html").write_text("<script>fetch('http://127.0.0.1:9/')</script>")
        own.open(tmp_path / "other.html")
        time.sleep(0.3)
        assert own.requests() == ["http://127.0.0.1:9/"]


@ONLY_CHROMIUM
@pytest.mark.long  # (it measures time: nothing else may run)
def test_answers_soon(tab):
    """From the opening of the file to an answer it takes at most half a second, once in 20 runs."""
    taken = [SECONDS + 1]
    while min(taken) > SECONDS and len(taken) <= 20:
        tab.ask("Page.navigate", url="about:blank")
        begun = time.monotonic()
        tab.open(page())
        tab.run("document.querySelector('#example').click()")
        assert answered(tab).startswith("no: findings 8")
        taken.append(time.monotonic() - begun)
    assert min(taken) <= SECONDS, taken


# ---- answers


@pytest.mark.parametrize("name", DOCUMENTS)
def test_documents(tab, name):
    """Verdict, report and findings are those of the program and of the library for C. The document is kept as it is."""
    path = TOP / f"examples/check/{name}.json"
    wanted = run(["check"], path.read_text()).stdout
    said = choose(tab, path)
    assert said == wanted.split("\n")[0]
    assert texts(tab, "#result pre")[0] == wanted
    (found,) = answers("native", [Call("findings", path.read_bytes())])
    kept = saved(tab, "Save the answer as JSON")
    assert kept.endswith(f',"answer":{found.text.decode().strip()}}}\n')
    head, listed = json.loads(kept), json.loads(found.text).get("findings", [])
    assert head["answer"] == json.loads(found.text) and head["input"] == path.name
    assert head["input_sha256"] == subprocess.check_output(["sha256sum", path], text=True).split()[0]
    assert head["module_sha256"] == subprocess.check_output(["sha256sum", MODULE], text=True).split()[0]
    assert saved(tab, "Save the document") == path.read_text()
    if listed:
        rows = saved(tab, "Save the findings as CSV").split("\r\n")[1:-1]
        assert [row.split(",")[0] for row in rows] == [it["rule"] for it in listed]


def test_refused_documents(tab):
    """The page gives the program's refusal and a sentence."""
    cases = {"{": "nested deeper", "{}": "the key is missing", "[]": "no object, list or text",
             '{"groups":[{"balises":[12]}],"messages":[]}': "no object, list or text",
             '{"groups":[{"balises":[]}],"messages":[]}': "no balise"}
    for text, sentence in cases.items():
        wanted = run(["check"], text).stdout.strip()
        assert (paste(tab, text, "document"), wanted[:8]) == (wanted, "refused:")
        assert sentence in tab.run("document.querySelector('#result').textContent"), text


def test_refused_telegram_of_a_document(tab):
    """It is opened, with its faulty bits marked and the field named."""
    spare = (TOP / "examples/spare-mark.txt").read_text().strip()
    text = json.dumps({"groups": [{"balises": [SHORT]}, {"balises": [spare]}], "messages": []})
    assert paste(tab, text) == "refused: group 1 balise 0: spare at 15 end 17"
    tab.until("document.querySelector('details.faulty[open] mark') !== null")
    shown = tab.run("document.querySelector('details.faulty').textContent")
    assert "Faulty bits: 15 to 16. The field there: M_DUP is 3." in shown
    assert tab.run("[...document.querySelectorAll('details.faulty mark')].map((it) => it.textContent).join('')") == "11"


def refused_lines():
    """Telegrams with one changed digit, of which many are refused, and texts of other sizes."""
    choice = random.Random(7)
    found = ["a1", "zz", SHORT[:-1], SHORT + "0", SHORT[:-1] + "1", "1.23E+53", " " + SHORT, "03", "88"]
    known = [it.read_text().split()[0] for it in sorted(TOP.glob("examples/*.txt"))]
    for _ in range(200):
        line = choice.choice(known)
        at = choice.randrange(min(len(line), 80))
        found.append(line[:at] + choice.choice("0123456789abcdef") + line[at + 1:])
    return found


def test_lines(tab):
    """Each line is read or refused as by the library, with the same words. What is read gives the same JSON."""
    lines = refused_lines()
    is_message = [line[:2] in ("03", "88") for line in lines]
    calls = [Call("message" if it else "telegram", line.encode()) for line, it in zip(lines, is_message)]
    wanted = answers("native", calls)
    refused = [(index, it.fault) for index, it in enumerate(wanted, 1) if it.status == 2]
    said = paste(tab, "\r\n".join(lines), "lines")
    assert said == f"{len(lines)} lines: {len(lines) - len(refused)} read, {len(refused)} refused"
    rows = [row.split(",") for row in saved(tab, "Save the refusals as CSV").split("\r\n")[1:-1]]
    assert [int(row[0]) for row in rows] == [index for index, _ in refused] and len({row[2] for row in rows}) >= 8
    for row, (index, (reason, at, end)) in zip(rows, refused):
        bits = [str(at), str(end)] if reason >= 10 else ["", ""]
        assert row[3:] == bits
        if row[1] == "telegram":
            program = run(["decode"], lines[index - 1] + "\n").stdout.strip()
            assert program == f"refused: line 1: {row[2]}" + (f" at {at} end {end}" if reason >= 10 else "")
    read = "".join(it.text.decode() for it in wanted if it.status == 0)
    assert saved(tab, "Save what was read as lines of JSON") == read


def test_marked_bits(tab):
    """The bits of a refused line are all there, and the marked ones are those of the program."""
    lines = [line for line in refused_lines() if line[:2] not in ("03", "88")]
    paste(tab, "\n".join(lines), "lines")
    texts(tab, "pre")
    boxes = tab.run("""[...document.querySelectorAll("details.faulty")].map((box) => [
        box.querySelector("summary").textContent, [...box.querySelectorAll("pre")].map((it) => it.innerHTML)])""")
    marked = 0
    for summary, (*rows,) in boxes:
        number, words = summary.split(": refused: ")
        line = lines[int(number.split()[1].rstrip(",")) - 1]
        if " at " not in words:
            assert rows == []
            continue
        _, at, _, end = words.rsplit(" ", 3)
        bits = "".join(row[6:] for row in rows[0].rstrip("\n").split("\n"))
        assert bits.replace("<mark>", "").replace("</mark>", "") == "".join(f"{int(it, 16):04b}" for it in line)
        places = [index for index, it in enumerate(marks_of(bits)) if it]
        assert places == [*range(int(at), int(end))]
        marked += bool(places)
    assert marked > 20


def changed_lines():
    """Telegrams and messages with one or two changed digits."""
    choice = random.Random(3)
    known = [line for path in sorted(TOP.glob("examples/*.txt")) for line in path.read_text().split()]
    for _ in range(2000):
        line = choice.choice(known)
        for _ in range(choice.randrange(1, 3)):
            at = choice.randrange(min(len(line), 110))
            line = line[:at] + choice.choice("0123456789abcdef") + line[at + 1:]
        if line[:2] not in ("03", "88"):
            yield line


@pytest.mark.slow
def test_names_of_fields(tab):
    """The field at a fault has the name, packet and number that `balisekit show` gives it by layouts of its own."""
    lines = [*changed_lines()]
    wanted = answers("native", [Call("telegram", line.encode()) for line in lines])
    faulty = [(line, it.fault[1]) for line, it in zip(lines, wanted) if it.status == 2 and it.fault[0] >= 10]
    given = "\n".join(line for line, _ in faulty)
    shown = run(["show"], given, path=TOP / "balisekit", timeout=300).stdout
    told = {int(number): it for number, *it in re.findall(rf"(?m)^line (\d+): {FIELD}", shown)}
    layouts = "JSON.parse(document.querySelector('#data').textContent)"
    asked = f"((its) => {json.dumps(faulty)}.map(([line, at]) => fieldAt(its, bitsOf(line), false, at)))({layouts})"
    compared = 0
    for number, said in enumerate(tab.run(asked), 1):
        own = re.match(FIELD, said)
        if number in told:
            name, packet, place, *numbers = told[number]
            place = str(ORDINALS.index(place)) if place else ""
            assert own and [*own.groups("")] == [name, packet, place, *numbers], (faulty[number - 1], said)
            compared += 1
    assert compared > 300


ORDINALS = "first second third fourth fifth sixth seventh eighth ninth tenth".split()
FIELD = (r"(\w+)(?: of packet (\d+) \((?:index )?(\w+)(?: packet)?\))? "
         r"(?:is (\d+)|needs (\d+) bits, and (\d+) (?:is|are) left)")


def marks_of(bits):
    """Whether each bit is inside a mark."""
    is_marked, found = False, []
    for piece in bits.replace("<mark>", "(").replace("</mark>", ")"):
        is_marked = {"(": True, ")": False}.get(piece, is_marked)
        if piece not in "()":
            found.append(is_marked)
    return found


def numbers_of(form):
    """All numbers and texts of a record of JSON."""
    if isinstance(form, dict):
        return [one for key, it in form.items() if key != "user_bits" for one in numbers_of(it)]
    return [one for it in form for one in numbers_of(it)] if isinstance(form, list) else [str(form)]


def test_words(tab):
    """Each number of each example is shown once, and each distance, speed and time with its unit."""
    lines = [(path, *it) for path in sorted(TOP.glob("examples/*.json")) for it in zip(
        path.read_text().splitlines(), path.with_suffix(".txt").read_text().split(), strict=True)]
    for path, text, digits in lines:
        form = json.loads(text)
        assert paste(tab, digits, "lines").startswith("1 line: 1 read"), path
        numbers = texts(tab, "#result td.number")
        assert sorted(numbers) == sorted(numbers_of(form)), path
        rows = tab.run("[...document.querySelectorAll('#result tbody tr:not(.part)')].map("
                       "(it) => [...it.cells].map((one) => one.textContent))")
        for name, _, words, about in rows:
            has_unit = name.startswith(("D_", "L_", "V_", "T_", "Q_")) and name != "L_PACKET"
            assert about and (words or not has_unit), (path, name)


ROWS = """[...document.querySelectorAll("#result details")].map((box) => [
    ...box.querySelectorAll("tbody tr:not(.part)")].map((it) => [...it.cells].map((one) => one.textContent)))"""
WITH_UNIT = re.compile(r"[\d.]+ (m|km/h|s)")
VALUE = r"\b([A-Z]+_\w+) (\d+(?:\.\d+)?) (m|km/h|s)(?: to either side)? \[(\d+)\]"


@pytest.mark.slow
def test_units(tab):
    """Each distance, speed and time has the value and unit that `balisekit show` gives it, with each Q_SCALE."""
    lines = [*changed_lines()]
    wanted = answers("native", [Call("telegram", line.encode()) for line in lines])
    read = [line for line, it in zip(lines, wanted) if it.status == 0 and b'"q_scale":' in it.text]
    other = [line for line, it in zip(lines, wanted) if it.status == 0 and re.search(b'"q_scale":[02]', it.text)]
    chosen = [*other[:25], *read[:25]]
    assert len(chosen) == 50 and paste(tab, "\n".join(chosen), "lines").startswith("50 lines: 50 read")
    texts(tab, "td")
    shown = run(["show"], "\n".join(chosen), path=TOP / "balisekit", timeout=300).stdout
    parts = re.split(r"(?m)^line \d+\n", shown)[1:]
    compared = 0
    for line, rows, part in zip(chosen, tab.run(ROWS), parts, strict=True):
        own = [(name, *words.split(), value) for name, value, words, _ in rows if WITH_UNIT.fullmatch(words)]
        told = [it for it in re.findall(VALUE, part) if it[0] != "Q_SCALE"]
        assert sorted(it for it in own if it[0] != "Q_SCALE") == sorted(told), line
        compared += len(told)
    assert compared > 200


# ---- other input


HOSTILE = {
    "markup": '{"groups":[{"balises":["<img src=x onerror=alert(1)>"]}],"messages":[]}',
    "markup in a key": '{"<script>alert(1)</script>":1,"groups":[],"messages":[]}',
    "markup as lines": "<img src=x onerror=alert(1)>\n<svg onload=alert(1)>\n",
    "closing elements": "</script><script>alert(1)</script>\n</textarea>\n",
    "broken": '{"groups":[', "cut string": '{"groups":["', "deep": "[" * 100_000,
    "numbers": '{"groups":[{"balises":[1,2]}],"messages":[3]}',
    "strange groups": '{"groups":5,"messages":{}}', "strange group": '{"groups":[null,7,[]],"messages":[]}',
    "nul": "a1007f\0\0", "replacement": "\ufffd\ufffe", "number": "1.6093E+62", "long line": "a" * 150_000,
    "prototype": '{"__proto__":{"groups":[]},"constructor":1}', "many": f"{SHORT}\n" * 500,
}


PIECES = ("<img src=x onerror=alert(1)>", "<", "&lt;", '"', "\\", "{", "}", "[", "]", ",", "0", "f", "e", "\u00e9", " ")


@pytest.mark.parametrize("name", HOSTILE)
def test_hostile_texts(opened, name):
    """Each gets a sentence, no script of it runs, and the page answers afterwards."""
    said = paste(opened, HOSTILE[name])
    assert len(said) > 10 and said[0].isalnum()
    texts(opened, "td")
    assert opened.messages() == [] and opened.requests() == []
    made = [f"{place} {it}" for place in ("#status", "#result") for it in ("img", "svg", "script", "b")]
    assert opened.run(f"document.querySelectorAll({json.dumps(', '.join(made))}).length") == 0
    assert paste(opened, SHORT).startswith("1 line: 1 read")


DROPPED = """(() => {
    const given = new DataTransfer();
    for (const [name, text] of %s) given.items.add(new File([text], name));
    document.body.dispatchEvent(new DragEvent("drop", { dataTransfer: given, bubbles: true, cancelable: true }));
})()"""
LONG_PASTE = """(() => {
    const given = new DataTransfer();
    given.setData("text", "zz\\n".repeat(100000));
    const event = new ClipboardEvent("paste", { clipboardData: given, bubbles: true, cancelable: true });
    document.querySelector("#text").dispatchEvent(event);
})()"""


def test_drop(opened):
    """A file that is dropped is checked. Of two files none is, and the page says so."""
    files = [[f"{name}.json", (TOP / f"examples/check/{name}.json").read_text()] for name in DOCUMENTS[:2]]
    opened.run(DROPPED % json.dumps(files[1:]))
    assert answered(opened) == "no: findings 8"
    opened.run(DROPPED % json.dumps(files))
    assert answered(opened) == "Not checked: drop one file at a time."
    assert opened.run("document.querySelector('#result').children.length") == 0


@ONLY_CHROMIUM
def test_long_paste(opened):
    """A long text is checked without being put into its field, which would be slow."""
    opened.run(LONG_PASTE)
    assert answered(opened) == "100000 lines: 0 read, 100000 refused"
    assert opened.run("document.querySelector('#text').value") == "" and opened.messages() == []


@pytest.mark.slow
def test_changed_documents(tab):
    """Documents with changed characters, many of them markup, have the program's answer."""
    choice, verdicts = random.Random(11), set()
    known = [(TOP / f"examples/check/{name}.json").read_text() for name in (*DOCUMENTS, "no-gradient", "marks-differ")]
    for _ in range(100):
        text = choice.choice(known)
        for _ in range(choice.randrange(1, 4)):
            at, piece = choice.randrange(1, len(text)), choice.choice(PIECES)
            text = text[:at] + piece + text[at + (1 if piece in "0fe" else choice.randrange(3)):]
        wanted = run(["check"], text).stdout.split("\n")[0]
        said = paste(tab, text, "document")
        assert said in (wanted, f"{wanted}. The document is empty, so nothing was checked."), text
        assert tab.run("document.querySelectorAll('#status img, #result img').length") == 0
        verdicts.add(" ".join(wanted.split()[:2]))
    assert tab.messages() == [] and len(verdicts) >= 6, verdicts


FILES = {
    "line.csv": (b"group,telegram\nA,a1\n", "refused: row 2: wrong size"),
    "line": (b"group;telegram\nA;a1\n", "refused: row 2: wrong size"),
    "line.xlsx": (b"PK\x03\x04\0\0", "Not checked: the workbook is damaged or cut short"),
    "old.xls": (b"\xd0\xcf\x11\xe0", "This is an old workbook"), "other.ods": (b"PK\x03\x04", "This is a workbook of another"),
    "broken.xlsx": (b"broken", "Not checked: the workbook is damaged"), "page.pdf": (b"%PDF-1.7", "This is a PDF."),
    "utf16.txt": (b"\xff\xfea\x001\0", "This file is in UTF-16."),
    "binary.json": (b'{"a\0b"', "This file has NUL bytes"), "<b>name<b>.csv": (b"x", "refused: no heading row"),
    "empty.json": (b"", "There is nothing to check"),
}


@pytest.mark.parametrize("name", FILES)
def test_other_files(tab, tmp_path, name):
    """What cannot be read gets a sentence that says what it is, and what to do."""
    content, sentence = FILES[name]
    (tmp_path / name).write_bytes(content)
    assert choose(tab, tmp_path / name).startswith(sentence)


# Notes the longest time between two frames, in milliseconds.
FRAMES = """(window.longest = 0, (function frame(before) {
    requestAnimationFrame((now) => {
        window.longest = Math.max(window.longest, now - (before ?? now));
        frame(now);
    });
})(), 0)"""
# What is before, between and after the 50 MB of a file, and how the sentence begins.
LARGE = {
    "long.txt": ("", "a", "", "1 line: 0 read, 1 refused"),
    "ends.txt": ("", "a\n", "", "Not checked: there are more than 1000000 lines."),
    "zeros.json": ("{", "\0", "", "This file has NUL bytes"),
    "blanks.json": ("{", " ", "", "refused: not JSON"),
    "string.json": ('{"groups":["', "a", '"],"messages":[]}', "refused: form kind at /groups/0")}


@pytest.mark.slow
@pytest.mark.parametrize("name", LARGE)
def test_large_files(opened, tmp_path, name):
    """50 MB get a sentence, while the page itself goes on."""
    before, repeated, after, sentence = LARGE[name]
    (tmp_path / name).write_text(before + repeated * (50_000_000 // len(repeated)) + after)
    opened.run("document.querySelector('#clear').click()")
    opened.run(FRAMES)
    assert choose(opened, tmp_path / name, 120).startswith(sentence)
    assert opened.run("window.longest") < 20_000  # (2 to 3 s if nothing else runs)
    assert opened.messages() == []


def test_stop(opened, tmp_path):
    """A long check can be stopped, and the next one is answered."""
    (tmp_path / "many.txt").write_text(f"{SHORT}\n" * 400_000)
    opened.run("document.querySelector('#clear').click()")
    opened.choose(tmp_path / "many.txt")
    opened.until("/^line [1-9]/.test(document.querySelector('#step').textContent)"
                 " && document.querySelector('#progress').value > 0")
    assert opened.run(STATUS) == "Working."
    opened.run("document.querySelector('#stop').click()")
    assert opened.run(STATUS) == "Stopped. There is no answer."
    assert paste(opened, SHORT).startswith("1 line: 1 read")


def test_browser_without_the_module():
    """A browser without 64-bit memory gets a sentence on what is needed, and its controls are off."""
    path = page()
    with Chromium() as own:
        own.open(path, "WebAssembly.validate = () => false;")
        said = own.run("document.querySelector('#unable:not([hidden])').textContent")
        assert "needs WebAssembly with 64-bit memory: Chromium" in said
        assert own.run("[...document.querySelectorAll('button')].every((it) => it.disabled)")


# ---- Firefox


def test_firefox(tmp_path):
    """Firefox opens the file and gives the same answers, without a request. One would be seen."""
    need("firefox")
    with Firefox() as browser:
        browser.open(page())
        for name in DOCUMENTS:
            path = TOP / f"examples/check/{name}.json"
            assert choose(browser, path) == run(["check"], path.read_text()).stdout.split("\n")[0]
        assert paste(browser, f"{SHORT}\nzz\n") == "2 lines: 1 read, 1 refused"
        assert "refused: not hexadecimal" in texts(browser, "details.faulty")[0]
        assert paste(browser, f"group,telegram\nA,{SHORT}\n") == "yes: groups 1, telegrams 1"
        assert paste(browser, f"group,telegram\nA,{SHORT}\nB,00\n") == "refused: row 3: wrong size"
        (tmp_path / "line.xlsx").write_bytes(workbook({"Line": [["group", "telegram"], ["A", SHORT], ["B", 1.6e62]]}))
        said = choose(browser, tmp_path / "line.xlsx")
        assert said == "refused: sheet Line row 3: cell B3 is a number, whose digits can be lost"
        assert browser.requests() == [] and browser.messages() == []
        browser.run("document.querySelector('#clear').click()")
        browser.sized(500)
        assert browser.run("document.documentElement.scrollWidth - innerWidth") <= 0
        (tmp_path / "other.html").write_text("<script>fetch('http://127.0.0.1:10009/'); setTimeout(() => { throw 1; })</script>")
        browser.open(tmp_path / "other.html")
        browser.until("performance.now() > 300")
        assert browser.requests() == ["http://127.0.0.1:10009/"] and browser.messages()
