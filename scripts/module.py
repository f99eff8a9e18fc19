#!/usr/bin/env python3
"""Proves a crate and builds it for a processor by the toolchain:   module.py CRATE x86_64|aarch64 OUT

For x86_64 OUT is the LLVM module that the toolchain hands to its compiler. For aarch64 it is what the toolchain makes,
an object file or an archive. The libraries that the crate uses must be kept (dist/keep-libraries).
"""
import os
import pathlib
import subprocess
import sys
import tempfile

KIT = pathlib.Path(subprocess.run(["rt", "doc"], stdout=subprocess.PIPE, text=True, check=True).stdout.strip()).parent
# Stands for the compiler: it keeps the module, and makes an object file without content.
KEEPS = """#!/bin/sh
for word; do
    case $word in *.bc) cp "$word" '{out}' ;; *.o) made=$word ;; esac
done
exec '{clang}' --target=x86_64-unknown-linux-gnu -c -x c /dev/null -o "$made"
"""


def keeping(room, out):
    """A toolchain in this folder that keeps the module."""
    binaries = room / "bin"
    binaries.mkdir()
    for path in (KIT / "toolchain").iterdir():
        if path.name != "bin":
            (room / path.name).symlink_to(path)
    for path in (KIT / "toolchain/bin").iterdir():
        if path.name != "clang":
            (binaries / path.name).symlink_to(path.resolve())
    clang = binaries / "clang"
    clang.write_text(KEEPS.format(out=out, clang=KIT / "toolchain/bin/clang"), "utf-8")
    clang.chmod(0o755)
    return room


def main(name, processor, out):
    """Builds the crate."""
    os.chdir(pathlib.Path(__file__).resolve().parent.parent)
    sys.path.insert(0, str(KIT / "bin"))
    import rtlib
    (crate,) = [it for it in rtlib.crates_below(os.path.abspath("crates")) if it.name == name]
    with tempfile.TemporaryDirectory() as folder:
        room = pathlib.Path(folder)
        keeps = processor == "x86_64"
        words = [rtlib.RATTLE, "build", *crate.words([]), *rtlib.KEPT, "--backend", "llvm"]
        words += ["--toolchain", str(keeping(room, out) if keeps else KIT / "toolchain")]
        words += ["--target", f"{processor}-unknown-linux-gnu", "-o", str(room / "made" if keeps else out)]
        sys.exit(subprocess.run(words, cwd=crate.folder, check=False).returncode)


if __name__ == "__main__":
    main(*sys.argv[1:3], os.path.abspath(sys.argv[3]))
