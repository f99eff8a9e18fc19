#!/usr/bin/env python3
"""Writes the archives of a release for other systems into TO:   targets.py TREE BUILT TO MARK

TREE is the folder of the release, whose ABOUT lists the files, and BUILT has them (out/targets). Each archive also has
the licences, ABOUT, its page, and the header of its library. The page for browsers is in no archive. SOURCE_DATE_EPOCH
is the time of all files. MARK is empty or -untested.
"""
import gzip
import io
import os
import re
import sys
import tarfile
import time
import zipfile
from pathlib import Path

TIME = int(os.environ.get("SOURCE_DATE_EPOCH", "0"))
BROWSER = "browser/balisecheck.html"
PAPERS = "LICENSE-APACHE", "LICENSE-MIT", "THIRD-PARTY.md", "dist/x86_64-linux/ABOUT"
HEADER, MANUAL, PAGE = "crates/balisecheck_c/include/balisecheck.h", "balisecheck.1", "docs/other-systems.md"
# For each system: its page, what else goes beside its files, and its archive, in which npm wants the folder `package`.
ARCHIVES = {"aarch64-linux": (PAGE, [HEADER, MANUAL], "balisecheck-{}-aarch64-linux{}.tar.gz"),
            "x86_64-windows": (PAGE, [HEADER], "balisecheck-{}-x86_64-windows{}.zip"),
            "wasm64": ("docs/module.md", [], "balisecheck-{}{}.tgz")}


def contents(tree, built, system, page, others):
    """The files of an archive by their names, each with its bytes and whether it can be run."""
    paths = [*sorted((built / system).iterdir()), *(tree / name for name in (*PAPERS, *others))]
    # (the pages that it links are not here)
    text = re.sub(r"\[([^]]*)\]\((?!https?:)[^)]*\)", r"\1", (tree / page).read_text("utf-8"))
    return {**{path.name: (path.read_bytes(), path.name == "balisecheck") for path in paths},
            "README.md": (text.encode(), False)}


def zipped(folder, files):
    """A zip archive of these files in a folder."""
    made = io.BytesIO()
    with zipfile.ZipFile(made, "w", zipfile.ZIP_DEFLATED, compresslevel=9) as archive:
        for name, (data, _) in files.items():
            entry = zipfile.ZipInfo(f"{folder}/{name}", time.gmtime(max(TIME, 315532800))[:6])
            entry.compress_type, entry.external_attr, entry.create_system = zipfile.ZIP_DEFLATED, 0o100644 << 16, 3
            archive.writestr(entry, data)
    return made.getvalue()


def tarred(folder, files):
    """A compressed tarball of these files in a folder."""
    made = io.BytesIO()
    with tarfile.open(fileobj=made, mode="w", format=tarfile.GNU_FORMAT) as archive:
        for name, (data, is_program) in files.items():
            entry = tarfile.TarInfo(f"{folder}/{name}")
            entry.size, entry.mtime, entry.mode = len(data), TIME, 0o755 if is_program else 0o644
            archive.addfile(entry, io.BytesIO(data))
    return gzip.compress(made.getvalue(), 9, mtime=0)


def main(tree, built, to, mark):
    """Writes each archive."""
    tree, built = Path(tree), Path(built)
    about = dict(line.split(" ", 1) for line in (tree / PAPERS[-1]).read_text("utf-8").splitlines())
    for system, (page, others, name) in ARCHIVES.items():
        path = Path(to, name.format(about["version"], mark))
        folder = "package" if path.suffix == ".tgz" else path.name.removesuffix(".zip").removesuffix(".tar.gz")
        files = contents(tree, built, system, page, others)
        path.write_bytes((zipped if path.suffix == ".zip" else tarred)(folder, files))
    if BROWSER in about:
        Path(to, f"balisecheck-{about['version']}{mark}.html").write_bytes((built / BROWSER).read_bytes())


if __name__ == "__main__":
    main(*sys.argv[1:])
