#!/usr/bin/env -S python3 -B
"""Makes docs/assurance/edition.md, and parts of docs/assurance/proofs.md, from the definitions in crates/*/specs and
the table of variables. tests/test_assurance.py compares them."""
from __future__ import annotations

from pathlib import Path
from typing import Dict

from edition import page, proofs
from variables.table import read_rows


def made() -> Dict[Path, str]:
    """The text of each page that has something made of the definitions."""
    return {proofs.PAGE: proofs.proofs_page(), page.PAGE: page.edition_page(read_rows())}


if __name__ == "__main__":
    for path, text in made().items():
        path.write_text(text, "utf-8")
