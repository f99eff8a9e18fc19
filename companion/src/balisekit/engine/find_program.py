"""Where the program and its library are, and who knows their checksums: ABOUT and RELEASES."""
from __future__ import annotations

import hashlib
import os
import shutil
import sys
from contextlib import contextmanager, suppress
from functools import lru_cache
from typing import TYPE_CHECKING, Dict, Iterator, List, Mapping, NamedTuple, Optional, Tuple

from balisekit.errors import NoAnswer

if TYPE_CHECKING:
    from subprocess import Popen

PACKAGE = os.path.dirname(os.path.dirname(os.path.abspath(__file__)))
TOP = os.path.normpath(os.path.join(os.path.realpath(__file__), *[os.pardir] * 5))
"""The top of the repository or of the release. For a wheel it is neither, and the package has the file."""
SECONDS = 60
"""How long the start script of a clone may take to compute the checksum of its sources."""
LIBRARY, MODULE = "libbalisecheck.so.0", "balisecheck.mjs"
ABOUT, RELEASES, SOURCES = "ABOUT", "RELEASES", "sources"
"""What a checksum is known by: the program that was stored with this balisekit, one that was stored before, or one that
was built from the sources of this clone and not stored."""
RELEASE = ("version", "commit", "sources", "program", "day")
"""What a line of RELEASES has."""
_STARTED: List[Popen[bytes]] = []
"""The start script that runs ahead."""


@contextmanager
def script_ahead() -> Iterator[None]:
    """Within this, the start script of a clone runs while balisekit imports what its command needs."""
    if not os.environ.get("BALISECHECK") and _is_of_sources() and not current_library():
        _STARTED.append(_start(_script()))
    try:
        yield
    finally:
        while _STARTED:
            with _STARTED.pop() as unused:
                unused.kill()


def _script() -> str:
    """Where a clone has its start script, and a release the program itself."""
    return os.path.join(TOP, "balisecheck")


def _is_clone() -> bool:
    return os.path.isfile(os.path.join(TOP, "companion", "pyproject.toml")) and os.path.isfile(_script())


def _is_of_sources() -> bool:
    """Whether this is a clone whose start script compares the program with the sources."""
    return _is_clone() and not _is_program(_script())


class StoredLibrary(NamedTuple):
    """The library for C, or the module, that was stored with this balisekit."""

    path: str
    sha256: str
    about: Mapping[str, str]
    """The lines of its ABOUT."""


def stored_library() -> Optional[StoredLibrary]:
    """The library that the first ABOUT names, if its file is undamaged. None if there is none."""
    return _stored_file(LIBRARY, "library")


def stored_module() -> Optional[StoredLibrary]:
    """The module for JavaScript that the first ABOUT names, if its file is undamaged. None if there is none."""
    return _stored_file(MODULE, "module")


def _stored_file(name: str, word: str) -> Optional[StoredLibrary]:
    """The first file of this name beside an ABOUT, if its checksum is the one that ABOUT has after the word."""
    for folder, papers in abouts():
        path = os.path.join(folder, name)
        if os.path.isfile(path):
            sha256 = checksum(path)
            return StoredLibrary(path, sha256, papers) if sha256 == papers.get(word) else None
    return None


@lru_cache(maxsize=None)
def current_library() -> Optional[StoredLibrary]:
    """The stored library, but in a clone only if no source has changed since: otherwise the start script decides."""
    stored = stored_library()
    return None if stored and _is_of_sources() and _has_changed_since(stored.path) else stored


def is_asked_for(named: Optional[str], timeout: Optional[float] = None) -> bool:
    """Whether the user asks for a run of the program: by its name, or by a time to wait, for a call cannot be ended."""
    return named is not None or timeout is not None or bool(os.environ.get("BALISECHECK"))


def answering(named: Optional[str], timeout: Optional[float]) -> str:
    """The file of the library if it answers, else of the program, else of the module."""
    is_asked = is_asked_for(named, timeout)
    library = None if is_asked else current_library()
    if library:
        return library.path
    try:
        return find(named)
    except NoAnswer:
        module = None if is_asked else stored_module()
        if module is None:
            raise
        return module.path


def _has_changed_since(path: str) -> bool:
    """Whether a file of the sources has changed after ABOUT was written, or come or gone, or something was built.

    To hash all sources takes several times as long. A fresh clone or tarball writes its files by their names, and so
    ABOUT after the sources. (It can set the times of folders at its end, which come from it then.)
    """
    if os.path.exists(os.path.join(TOP, "out", "balisecheck")):
        return True
    written = os.stat(os.path.join(os.path.dirname(path), ABOUT)).st_ctime_ns
    crates = os.path.join(TOP, "crates")
    if any(os.stat(os.path.join(TOP, name)).st_ctime_ns > written for name in ("crates.txt", "HANDLES")):
        return True
    folders = [os.path.join(crates, crate, part) for crate in os.listdir(crates) for part in ("src", "specs", "proofs")]
    return os.stat(crates).st_mtime_ns > written or any(_is_newer(each, written) for each in folders)


def _is_newer(folder: str, written: int) -> bool:
    """Whether the folder, if there is one, or anything in it has changed after this time."""
    with suppress(FileNotFoundError), os.scandir(folder) as entries:
        if os.stat(folder).st_mtime_ns > written:
            return True
        return any(
            _is_newer(each.path, written) if each.is_dir() else each.stat().st_ctime_ns > written for each in entries
        )
    return False


def find(named: Optional[str]) -> str:
    """Where the program is. The start script of a clone is replaced by the program that it would run."""
    named = os.environ.get("BALISECHECK") or None if named is None else named
    script, is_clone = _script(), _is_clone()
    if named is not None:
        path = shutil.which(named) if isinstance(named, (str, os.PathLike)) else None
        if path is None or not os.path.isfile(path):
            raise NoAnswer(f"there is no program {named or repr(named)}")
    elif is_clone:
        path = script
    else:
        path = _installed()
    # (in a clone it is the start script; in a release it is the program itself)
    if is_clone and os.path.samefile(path, script) and not _is_program(script):
        path = _stored(script)
    return os.path.abspath(path)


def _installed() -> str:
    """The program that was installed with this package, else the one beside the interpreter or on the path."""
    # (pip installs it into `bin` beside the package by --target, else beside `lib`: neither need be on the path)
    above = (os.path.normpath(os.path.join(PACKAGE, *[os.pardir] * levels, "bin")) for levels in (1, 4))
    folders = list(dict.fromkeys([*above, os.path.dirname(sys.executable)]))
    found = (shutil.which("balisecheck", path=folder) for folder in [*folders, None])
    path = next(filter(None, found), None)
    if path is None:
        where = f"there is no balisecheck in {', in '.join(folders)} or on the path"
        raise NoAnswer(f"{where}: name one by --program or BALISECHECK")
    return path


def _is_program(path: str) -> bool:
    """Whether a file is a program, and no script."""
    with open(path, "rb") as file:
        return file.read(4) == b"\x7fELF"


def _start(script: str) -> Popen[bytes]:
    """Starts the start script, which writes the path of the program that it would run."""
    from subprocess import DEVNULL, PIPE, Popen  # (only a clone needs it)

    environment = {**os.environ, "BALISECHECK_PATH": "1"}
    words = ["/bin/sh", script]  # (a tree from a zip may have lost the modes, which the script reports)
    try:
        return Popen(words, stdin=DEVNULL, stdout=PIPE, stderr=PIPE, env=environment)
    except OSError as error:
        raise NoAnswer(f"{script}: {error.strerror}") from error


def _stored(script: str) -> str:
    """The program that the start script would run."""
    from subprocess import TimeoutExpired

    with _STARTED.pop() if _STARTED else _start(script) as run:
        try:
            output, errors = run.communicate(timeout=SECONDS)
        except TimeoutExpired as error:
            raise NoAnswer(f"{script}: it has not ended within {SECONDS} s") from error
        finally:
            run.kill()
    path = os.fsdecode(output.rstrip(b"\n"))
    if run.returncode != 0 or not os.path.isfile(path):
        said = errors.decode("utf-8", "backslashreplace").strip().split("\n")[-1]
        raise NoAnswer(f"{script} names no program: {said or 'it prints nothing'}")
    return path


def checksum(path: str) -> str:
    """The SHA-256 of the file."""
    digest = hashlib.sha256()
    try:
        with open(path, "rb") as file:
            for piece in iter(lambda: file.read(1 << 20), b""):
                digest.update(piece)
    except OSError as error:
        raise NoAnswer(f"{path} cannot be read: {error.strerror}") from error
    return digest.hexdigest()


class Known(NamedTuple):
    """What is known of a program."""

    by: str = ""
    """ABOUT, RELEASES or SOURCES. Nothing for any other program."""
    papers: Mapping[str, str] = {}


def known(named: Optional[str], path: str, sha256: str) -> Known:
    """What is known of the program at this path.

    NoAnswer is raised for a program that nobody knows, unless it is `named` by an option: the environment and the path
    can change unnoticed.
    """
    about, listed = papers(sha256), release(sha256)
    if about or listed:
        return Known(ABOUT if about else RELEASES, about or listed)
    if not named and built_here(sha256):
        return Known(SOURCES)
    if named:
        return Known()
    who = "BALISECHECK names" if os.environ.get("BALISECHECK") else "found"
    raise NoAnswer(
        f"{who} {path}, which is not a released program: neither ABOUT nor RELEASES has its SHA-256, {sha256}; "
        f"if you want this one, name it by --program"
    )


def built_here(sha256: str) -> bool:
    """Whether the start script of the clone would run this program, since it was built from exactly its sources."""
    if not _is_clone() or _is_program(_script()):
        return False
    if not os.environ.get("BALISECHECK"):  # (then it is the one that the start script has named)
        return True
    with suppress(NoAnswer):
        return checksum(_stored(_script())) == sha256
    return False


def papers(sha256: str) -> Dict[str, str]:
    """The lines of ABOUT that name the program with this checksum."""
    return next((papers for papers in all_papers() if sha256 == papers.get("program")), {})


def release(sha256: str) -> Dict[str, str]:
    """The last line of RELEASES that names the program with this checksum."""
    for folder in (os.path.join(TOP, "dist"), PACKAGE):
        try:
            with open(os.path.join(folder, RELEASES), encoding="utf-8") as file:
                lines = [dict(zip(RELEASE, line.split())) for line in file if line[0] != "#"]
        except (OSError, UnicodeDecodeError):
            continue
        for line in reversed(lines):
            if line.get("program") == sha256:
                return line
    return {}


def all_papers() -> Iterator[Dict[str, str]]:
    """The lines of each ABOUT by their first words. Files that cannot be read are skipped."""
    return (papers for _, papers in abouts())


def abouts() -> Iterator[Tuple[str, Dict[str, str]]]:
    """The folder and the lines of each ABOUT."""
    dist, stored = os.path.join(TOP, "dist"), []
    with suppress(OSError):
        stored = sorted(os.path.join(dist, each, ABOUT) for each in os.listdir(dist) if each[0] != ".")
    for about in [*stored, os.path.join(PACKAGE, ABOUT)]:
        try:
            with open(about, encoding="utf-8") as file:
                lines = file.read().split("\n")
        except (OSError, UnicodeDecodeError):
            continue
        yield os.path.dirname(about), dict(line.split(" ", 1) for line in lines if " " in line)


def released() -> str:
    """Version and checksums of the program, or of the module, that was released with this balisekit. Empty if there is
    none."""
    papers: Dict[str, str] = next(all_papers(), {})
    word = "module" if "module" in papers else "program"
    return f"balisecheck {papers['version']}, sources {papers['sources']}, {word} {papers[word]}" if papers else ""
