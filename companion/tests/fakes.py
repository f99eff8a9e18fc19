"""Programs that pass the handshake of balisecheck, and then do something else."""
from __future__ import annotations

from pathlib import Path

from balisekit.engine.program import HANDSHAKE

RECORD = HANDSHAKE[2][3]
"""A line that `decode` writes."""
KNOWN = """
case "$*" in
check) read -r line; case "$line" in '{0[1]}'*) echo '{0[3]}'; exit 0 ;; esac ;;
--version) echo '{1[3]}'; exit 2 ;;
decode) read -r line; case "$line" in {2[1]}) echo '{2[3]}'; exit 0 ;; esac ;;
esac
"""


def fake(path: Path, does: str, first: str = "") -> Path:
    """A program that answers the handshake, and then runs these lines of a shell. It runs `first` before everything."""
    known = KNOWN.format(*((words, text.rstrip("\n"), status, answer) for words, text, status, answer in HANDSHAKE))
    path.write_text(f"#!/bin/sh\n{first}\n{known}\n{does}\n", "utf-8")
    path.chmod(0o755)
    return path
