"""Hostile files on the page for browsers: no script of one runs, none makes it hang, and each gets a clear sentence."""
import json
import re
import time

import pytest

from checker_page import RUN_BY_A_FILE, SHORT, choose, paste, texts
from checker_page import a_tab  # noqa: F401 pylint: disable=unused-import # (fixtures)
from hostile_files import LARGE, bytes_of, hostile

FILES = hostile()
SMALL = [name for name in FILES if not name.startswith(LARGE)]
IN_GATE = SMALL[::9]
SECONDS = 60
# What Chromium says of the page that its own parser makes of a fault in XML. Its policy is that of the page.
OF_PARSER = "Applying inline style violates the following Content Security Policy directive"


def test_there_are_enough():
    """More than 200 files, of which 29 are in the gate."""
    assert len(SMALL) > 240 and len(IN_GATE) > 27


def messages(tab):
    """What a browser has reported of the page, without what it says of its own parser."""
    return [it for it in tab.messages() if OF_PARSER not in json.dumps(it)]


@pytest.mark.parametrize("name", [pytest.param(it, marks=[] if it in IN_GATE else [pytest.mark.long]) for it in FILES])
def test_hostile_files(tab, tmp_path, name):
    """The sentence is the expected one, nothing of the file becomes an element, and the next input is answered."""
    it = FILES[name]
    (tmp_path / it.file).write_bytes(bytes_of(it.content))
    begun = time.monotonic()
    said = choose(tab, tmp_path / it.file, SECONDS)
    assert re.match(it.said, said), said
    if not name.startswith(LARGE):
        texts(tab, "td")
    assert time.monotonic() - begun < SECONDS
    try:
        assert messages(tab) == [] and tab.requests() == [] and tab.run(RUN_BY_A_FILE) == 0
        assert paste(tab, SHORT).startswith("1 line: 1 read")
    finally:
        tab.open(tab.run("location.pathname"))
