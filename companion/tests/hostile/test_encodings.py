"""Files whose end is in another encoding than their beginning (encodings.json): the second part could be hidden."""
from __future__ import annotations

import json
import re
from pathlib import Path
from typing import Callable, Dict

import pytest
from conftest import Run
from telegrams import ALONE, MESSAGE, OTHER

Write = Callable[..., Path]
CASES = json.loads(Path(__file__).with_name("encodings.json").read_text("utf-8"))
PAIRS = re.sub("(..)(?=.)", "\\1\u00a0", OTHER.replace("a100", "a104"))
"""A telegram with a wrong N_PIG, as another program might write it."""


@pytest.mark.parametrize("case", CASES, ids=[case["name"] for case in CASES])
@pytest.mark.parametrize("telegram", [PAIRS.replace("\u00a0", ""), PAIRS, PAIRS.replace("\u00a0", ":")])
def test_two_encodings(run: Run, table: Write, case: Dict[str, str], telegram: str) -> None:
    """Tables and files of messages are refused, whether the second part begins with a row or within one."""
    for end in ("", "\n"):
        first = f"group;telegram;note\nSüd;{ALONE};drawing 12{end}".encode(case["first"])
        path = table(content=first + f"Süd 2;{telegram};\n".encode(case["second"]))
        status, _, err = run("check", path)
        assert status == 2 and err and err[0].startswith(f"balisekit: {path}: "), (end, err)
        first = f"{MESSAGE};Zug nach Süd{end}".encode(case["first"])
        radio = table(content=first + f"{MESSAGE[:-2]};Zug nach Süd\n".encode(case["second"]), name="m.txt")
        status, _, err = run("check", table("group;telegram", f"A;{ALONE}", name="t.csv"), "--messages", radio)
        assert status == 2 and err and err[0].startswith(f"balisekit: {radio}: "), (end, err)


@pytest.mark.parametrize("encoding", ["utf-8", "utf-8-sig", "utf-16", "utf-16-le", "utf-16-be", "windows-1252"])
@pytest.mark.parametrize("words", ["Groß» – “Süd” 5 °C €", "北京铁路局第一信号机应答器组报文表格备注说明文字二三四五六七八九十", "Α Ω Ж Ę ħ"])
def test_one_encoding(run: Run, table: Write, encoding: str, words: str) -> None:
    """Words of many languages are read."""
    content = f"group;telegram;note\nA;{ALONE};{words * 5}\n".encode(encoding, "replace")
    assert run("check", table(content=content))[0] == 0
