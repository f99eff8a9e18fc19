"""The coverage of balisekit in this process, if COVERAGE_FILE names a file. All modules are imported under it."""
from __future__ import annotations

import os
from contextlib import suppress
from importlib import import_module
from pathlib import Path
from pkgutil import walk_packages
from typing import Any

COVERAGE: Any = None
"""It runs only within tests that are covered: it would slow the collection and all other tests."""
if "COVERAGE_FILE" in os.environ:
    from coverage import Coverage

    COVERAGE = Coverage(data_suffix=True, config_file=str(Path(__file__).parents[1] / "pyproject.toml"))
    COVERAGE.start()
    for module in walk_packages(import_module("balisekit").__path__, "balisekit."):
        with suppress(ImportError):  # (of a package that is not installed)
            if module.name != "balisekit.__main__":
                import_module(module.name)
    COVERAGE.stop()
