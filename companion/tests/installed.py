"""balisekit as pip installs the wheel, whose command and modules are those of the sources (tests/test_release.py)."""
from __future__ import annotations

import hashlib
import os
import shutil
import sys
import venv
from pathlib import Path

from cases_of_program import TOP

VERSION = f"python3.{sys.version_info[1]}"


def layout(prefix: Path, packages: str = f"lib/{VERSION}/site-packages") -> Path:
    """Puts the files of the wheel into a prefix. Returns its command. ABOUT names the program under test."""
    package = prefix / packages / "balisekit"
    sources = TOP / "companion" / "src" / "balisekit"
    shutil.copytree(sources, package, ignore=shutil.ignore_patterns("__pycache__"))
    program = Path(os.environ["BALISECHECK"])
    digest = hashlib.sha256(program.read_bytes()).hexdigest()
    (package / "ABOUT").write_text(f"version 0.0.0\nsources 0\nprogram {digest}\n", "utf-8")
    (prefix / "bin").mkdir(exist_ok=True)
    (prefix / "bin" / "balisecheck").symlink_to(program)
    return Path(shutil.copy2(TOP / "balisekit", prefix / "bin" / "balisekit"))


def environment(prefix: Path) -> Path:
    """A virtual environment with the wheel, by this interpreter. Returns its command."""
    venv.create(prefix, system_site_packages=True, with_pip=False, symlinks=True)
    return layout(prefix)
