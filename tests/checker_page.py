"""How tests use the page for browsers. It is made anew of the module that scripts/targets has built."""
import functools
import json
import pathlib
import subprocess
import time

import pytest

from browsers import Chromium, Firefox
from runner import TOP
from targets import MODULE, ROOM, need

STATUS, CHECKED = "document.querySelector('#status').textContent", "!/Working|Nothing has/.test({0}) && {0}"
DOCUMENTS = ("sound-line", "many-findings", "controlled-group", "correct-data", "gradient-short")
SHORT = "a1007f802000ffffffffffffffffffffffffffffffffffffffffc0"


@functools.lru_cache(None)
def page():
    """The path of the page, made of the parts as they are here."""
    need()
    path = pathlib.Path(ROOM.name, "balisecheck.html")
    subprocess.run([TOP / "scripts/page.py", MODULE, path], check=True)
    return path


BROWSERS = {"chromium": Chromium, "firefox": Firefox}
ONLY_CHROMIUM = pytest.mark.parametrize("tab", ["chromium"], indirect=True)


@pytest.fixture(scope="module", name="tab", params=["chromium", pytest.param("firefox", marks=pytest.mark.long)])
def a_tab(request):
    """A browser with the page."""
    need(request.param)
    path = page()
    with BROWSERS[request.param]() as browser:
        browser.sized(1400)
        browser.open(path)
        yield browser


@pytest.fixture(name="opened")
def an_opened_tab(tab):
    """The page just opened."""
    tab.open(page())
    return tab


def answered(tab, seconds=60):
    """What the page says as soon as it has an answer."""
    return tab.until(CHECKED.format(STATUS), seconds)


def paste(tab, text, kind=""):
    """Checks a pasted text, and returns what the page says."""
    tab.run(f"""document.querySelector("#clear").click(),
        document.querySelector("[name=kind][value='{kind}']").click(),
        document.querySelector("#text").value = {json.dumps(text)}, document.querySelector("#check").click()""")
    return answered(tab)


def choose(tab, path, seconds=60):
    """Opens a file, and returns what the page says."""
    tab.run("document.querySelector('#clear').click(), document.querySelector('[name=kind]').click()")
    tab.choose(path)
    return answered(tab, seconds)


def saved(tab, label):
    """The text of the file that a button saves."""
    return tab.run(f"""new Promise((resolve) => {{
        const before = URL.createObjectURL;
        URL.createObjectURL = (blob) => {{
            URL.createObjectURL = before;
            blob.text().then(resolve);
            return before(blob);
        }};
        [...document.querySelectorAll("button")].find((it) => it.textContent === {json.dumps(label)}).click();
    }})""")


# Opens all boxes, and returns whether each is filled. A place without telegrams stays empty.
OPENED = """(() => {
    const [boxes, places] = ["details", "div"].map((it) => [...document.querySelectorAll(`#result ${it}`)]);
    for (const box of boxes) box.open = true;
    const isFilled = places.every((it) => it.children.length > 0) && !document.querySelector("#result button[hidden]");
    return isFilled && boxes.every((it) => it.children.length > 1);
})()"""


def texts(tab, selector):
    """The texts of all elements, after all boxes were opened: after 5 s also those of a page with an empty place."""
    until = time.monotonic() + 5
    while not tab.run(OPENED) and time.monotonic() < until:
        time.sleep(0.02)
    return tab.run(f"[...document.querySelectorAll({json.dumps(selector)})].map((it) => it.textContent)")


# How many elements a page has that only the markup of an input could have made.
RUN_BY_A_FILE = """["#status", "#result"].flatMap((place) => ["img", "svg", "script", "b", "iframe", "style", "base", "meta"].map(
    (name) => document.querySelectorAll(`${place} ${name}`).length)).reduce((sum, one) => sum + one, 0)"""
