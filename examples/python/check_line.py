"""Checks a table with balisekit, filters what it finds, and applies a rule of your own.

Run it from the top of the clone: `PYTHONPATH=companion/src python3 examples/python/check_line.py`
"""
from __future__ import annotations

from collections import Counter
from pathlib import Path

import balisekit

TOP = Path(__file__).resolve().parents[2]


def main() -> None:
    """Prints the verdict, the findings of one group, and how many findings each rule has."""
    table = balisekit.read_table(TOP / "examples/table/line.csv")
    result = balisekit.check(table, rules_from=[TOP / "examples/python/acme_7.py"])
    print("status", result.status)  # 2, since a telegram was refused
    for finding in result.of("F", "ACME-7"):
        if finding.group == "Signal E" and not finding.expected:
            print(finding.rule, finding.km, finding.aspect, finding.values)
    records = result.to_records()
    try:
        import pandas
    except ImportError:
        print(dict(Counter(record["rule"] for record in records)))
    else:
        frame = pandas.DataFrame(records)
        print(frame.groupby("rule", sort=False).size().to_dict())


if __name__ == "__main__":
    main()
