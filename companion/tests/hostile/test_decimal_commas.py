"""Kilometres with a decimal comma without quotes, in files with commas between cells (decimal_commas.json)."""
from __future__ import annotations

import json
import re
from pathlib import Path
from typing import Any, Callable, Dict, List

import pytest
from conftest import Run
from telegrams import ALONE, OTHER

CASES = json.loads(Path(__file__).with_name("decimal_commas.json").read_text("utf-8"))
TELEGRAMS = {"A": ALONE, "B": OTHER, "C": ALONE.replace("2000ff", "2002ff")}


@pytest.mark.parametrize("case", CASES, ids=[case["name"] for case in CASES])
def test_a_kilometre_in_two_cells(run: Run, table: Callable[..., Path], case: Dict[str, Any]) -> None:
    """These rows are refused at km, with a kilometre that is written so that it is clear. The others are read."""
    path = table(case["heading"], *(row.format(**TELEGRAMS) for row in case["rows"]))
    status, _, err = run("check", path)
    rows = [
        int(found[1])
        for found in (re.search("row ([0-9]+), column km: .*a decimal comma", line) for line in err)
        if found
    ]
    assert rows == case["refused"] and (not rows) == (err == [] and status == 0), err


@pytest.mark.parametrize(
    "lines, row",
    [
        (["kind,value,km,km_to", "signal,,1.000,", "gradient,5,0,500,"], 3),
        (["kind,km,km_to,value,name", "gradient,0.1,1,5,,"], 2),
        (["kind,value,km,km_to", "gradient,5,0,500"], 2),
    ],
)
def test_a_kilometre_of_a_plan_in_two_cells(run: Run, table: Callable[..., Path], lines: List[str], row: int) -> None:
    """A row of the track plan is refused too."""
    path, plan = table("group,telegram,km", f"A,{ALONE},1.234"), table(*lines, name="plan.csv")
    status, _, err = run("check", path, "--plan", plan)
    assert status == 2 and err[0].startswith(f"balisekit: {plan}: row {row}, column km") and "decimal comma" in err[0]


@pytest.mark.parametrize(
    "rows, wanted",
    [
        (["A,NID_BG,1000,5", "A,NID_C,1,"], [2]),
        (["A,NID_BG,1000,5", "A,NID_C,1"], [2]),
        (["A,NID_BG,1000,5", "A,NID_C,1,7"], []),
        (["A,NID_BG,1000,", "A,NID_C,1,see 5"], []),
        (['A,NID_BG,"1000,5",', "A,NID_C,1,"], []),
    ],
)
def test_an_expected_value_in_two_cells(
    run: Run, table: Callable[..., Path], rows: List[str], wanted: List[int]
) -> None:
    """It is refused. Numbers behind all values are a column of their own."""
    path, sheet = table("group,telegram", f"A,{ALONE}"), table("group,variable,value,remark", *rows, name="sheet.csv")
    status, _, err = run("table", path, "--expect", sheet)
    found = [re.search("row ([0-9]+), column value: .*a decimal comma", line) for line in err]
    assert [int(each[1]) for each in found if each] == wanted and (not wanted or status == 2), err
