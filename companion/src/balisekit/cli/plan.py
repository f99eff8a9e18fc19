"""`balisekit plan`: the older name of `balisekit design`."""
from __future__ import annotations

import argparse

from balisekit.cli.design import add_options, write

__all__ = ["add_options", "run"]


def run(options: argparse.Namespace) -> int:
    """Does it. The answer is the exit status."""
    return write(options, is_plan=True)
