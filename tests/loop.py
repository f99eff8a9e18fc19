#!/usr/bin/env -S python3 -B
"""Runs each case of tests/cases without pytest. The last line is 'the cases: N passed, M failed', and the exit status
is 1 if a case failed. BALISECHECK names the program."""
import sys

from cases import every
from runner import run

cases = list(every())
failed = [(name, found, wanted) for name, words, given, wanted in cases if (found := run(words, given)) != wanted]
for name, found, wanted in failed[:100]:
    print(f"failed: {name}", f"  found:  {found}"[:1000], f"  wanted: {wanted}"[:1000], sep="\n")
print(f"the cases: {len(cases) - len(failed)} passed, {len(failed)} failed")
sys.exit(bool(failed))
