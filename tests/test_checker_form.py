"""The form of the page for browsers: what a keyboard and a screen reader need of it, light and dark, at four widths."""
import json
import time

import pytest

from checker_page import SHORT, paste, texts
from checker_page import a_tab, an_opened_tab  # noqa: F401 pylint: disable=unused-import # (fixtures)
from page_form import FOCUSED, FORM, ORDER
from runner import TOP

TABLE = "group,km,telegram\n"
STATES = {"start": "", "findings": (TOP / "examples/check/many-findings.json").read_text(),
          "yes": (TOP / "examples/check/sound-line.json").read_text(), "empty": '{"groups":[],"messages":[]}',
          "lines": f"{SHORT}\nzz\n{SHORT[:3]}1{SHORT[4:]}\n", "refused": "{",
          "table": f"{TABLE}A,1.5,{SHORT}\nB,2,{SHORT}\n", "other telegrams": f"{TABLE}A,{SHORT},{SHORT}\n",
          "refused rows": f"{TABLE}A,1.5,{SHORT}\nB,2,00\nC,3,{SHORT[:3]}1{SHORT[4:]}\n", "no table": "a;b\n"}


@pytest.mark.parametrize("dark", [False, True], ids=["light", "dark"])
@pytest.mark.parametrize("state", STATES)
def test_form(opened, state, dark):
    """Labels, roles, headings, ids and contrast are right, and no width makes the page scroll sideways."""
    opened.sized(1400, dark=dark)
    if STATES[state]:
        paste(opened, STATES[state])
        texts(opened, "td")
    opened.run("document.querySelectorAll('details').forEach((it) => { it.open = true; })")
    time.sleep(0.2)
    for width in 1400, 800, 500, 320:
        opened.sized(width, dark=dark)
        assert opened.run(FORM) == [], (state, width)
        assert opened.run("document.documentElement.scrollWidth - innerWidth") <= 0, width
    opened.sized(1400)


def test_focus_after_more(opened):
    """A button for more rows keeps the focus while there are more, and then the first of the last rows gets it."""
    paste(opened, f"{SHORT}\n" * 120)
    opened.run("[...document.querySelectorAll('#result button')].at(-1).focus()")
    for wanted in "Show 20 more of 20", "line 101, telegram":
        opened.press("Enter", text="\r")
        opened.until(f"document.activeElement.textContent.startsWith({json.dumps(wanted)})", 5)


@pytest.mark.parametrize("state", ["start", "findings"])
def test_focus(opened, state):
    """Tab goes through all controls in the order in which they are seen, and each shows that it has the focus."""
    if STATES[state]:
        paste(opened, STATES[state])
    total, found = opened.run(ORDER), []
    opened.run("(document.body.tabIndex = -1, document.body.focus())")
    for _ in range(total):
        opened.press("Tab")
        found.append(opened.run(FOCUSED))
    assert [it for *_, is_seen, it in found if not is_seen] == []
    assert [it for it in zip(found, found[1:]) if it[0][0] > it[1][0] + 40] == []
    assert len({it[3] + str(it[0]) for it in found}) == total


def test_wrong_form_is_found(opened):
    """The check of the form finds a control without a label, pale text, a table without a caption, and an id twice."""
    wrong = ('<button></button><input id="text"><p style="color: #bbb; background: #fff">pale</p>'
             '<table><tr><td>1</table><h5>deep</h5><div role="region">x</div>')
    opened.run(f'document.querySelector("#result").innerHTML = {json.dumps(wrong)}')
    assert len(opened.run(FORM)) >= 6
