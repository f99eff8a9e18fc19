"""The module of WebAssembly, by node: it answers where neither the library nor the program can be used.

It contains the library for C. One process of node answers all calls, one after the other, and ends with this one. After
a fork, and after a call that was interrupted, a new one begins: no call can get the answer of another one. Each one
first gives trial answers, and every output names the file of node and its version.
"""
from __future__ import annotations

import os
import shutil
from dataclasses import dataclass
from functools import lru_cache
from subprocess import DEVNULL, PIPE, Popen
from threading import Lock, Timer
from typing import ClassVar, List, Optional, Tuple

from balisekit.engine import find_program
from balisekit.engine.library import NO_MEMORY, Call, Fault, Library, _bytes
from balisekit.engine.loaded_library import LoadedLibrary
from balisekit.errors import NoAnswer

OPTIONS: Tuple[List[str], ...] = (["--experimental-wasm-memory64"], [])
"""What node needs for 64-bit memory: node 20 and 22 the option, which later ones no longer know."""
HEAD = 80
"""How many bytes the words before an input or an answer take, with blanks at their end."""
SERVES = """import { readSync, writeSync } from "node:fs";
import { pathToFileURL } from "node:url";
const its = await import(pathToFileURL(process.argv[1]));
const encoder = new TextEncoder(), decoder = new TextDecoder();
function read(length) {
    const data = new Uint8Array(length);
    for (let at = 0; at < length;) {
        const count = readSync(0, data, at, length - at);
        if (count === 0) process.exit(0);
        at += count;
    }
    return data;
}
function write(words, text) {
    for (const data of [encoder.encode(words.join(" ").padEnd(80)), text]) {
        for (let at = 0; at < data.length;) at += writeSync(1, data, at);
    }
}
write([its.version, process.version], new Uint8Array());
for (;;) {
    const [name, length] = decoder.decode(read(80)).trim().split(" ");
    const [command, radio] = name.split("_");
    const answer = its[command](read(Number(length)), { radio: radio !== undefined });
    const { reason, at, end } = answer.fault ?? { reason: 0, at: 0, end: 0 };
    const text = encoder.encode(answer.text);
    write([answer.status, text.length, reason, at, end], text);
}
"""
"""What node runs: it reads a call, and writes the answer."""
SECONDS = 60
"""How long node may take to start and to give its trial answers. Later calls can be long, and have no limit."""
_ALONE, _FIRST = (f"{header}802000{'f' * 40}c0" for header in ("a1007f", "a102ff"))
_REFUSED = "a1007f802000c15022a0d4800151402b80d9000105083e87ffffc0"
_DECODED = (
    b'{"m_dup":0,"m_mcount":255,"m_version":33,"n_pig":0,"n_total":0,"nid_bg":1,"nid_c":1,"packets":[],"q_link":1,'
    b'"user_bits":210}\n'
)
TRIALS: Tuple[Tuple[str, str, int, bytes], ...] = (
    ("decode", f"{_ALONE}\n", 0, _DECODED),
    ("decode", f"{_REFUSED}\n", 2, b"refused: line 1: spare at 127 end 129\n"),
    (
        "check",
        f'{{"groups":[{{"balises":["{_ALONE}"]}},{{"balises":["{_FIRST}"]}}],"messages":[]}}',
        1,
        b"no: findings 3\nF2 group 1 balise 0: total wrong\nF4 group 1 balise 0: mark points outside\n"
        b"F14 group 1: identity used before\n",
    ),
)
"""Calls, and what they have to answer: a telegram, one that is refused, and a line with findings."""


class Module(Library):
    """The module at a path, with the methods of the library. OSError is raised if node is absent or cannot load it."""

    def __init__(self, path: str) -> None:  # pylint: disable=super-init-not-called
        self.path, self.node, self.node_version = path, found_node(), ""
        self._lock = Lock()
        self._begin()

    def _begin(self) -> None:
        """Starts node as a process of this one. NoAnswer is raised if it gives another answer than the module."""
        # (variables of node, such as NODE_OPTIONS, can make it run other code first)
        known = {name: value for name, value in os.environ.items() if not name.startswith("NODE_")}
        for options in OPTIONS if self.node else ():
            words = [self.node, *options, "--input-type=module", "-e", SERVES, self.path]
            self._node = Popen(words, stdin=PIPE, stdout=PIPE, stderr=DEVNULL, env=known)
            self._owner = os.getpid()
            limit = Timer(SECONDS, self._node.kill)
            limit.daemon = True
            limit.start()
            try:
                self._its_version, node_version = self._words()
                self._shake_hands(node_version)
                return
            except EOFError:
                self._node.communicate()
            except (OSError, ValueError) as error:
                self._end()
                raise self._no_module() from error
            except BaseException:
                self._end()
                raise
            finally:
                limit.cancel()
        raise OSError(f"no node that loads {self.path}")

    def _shake_hands(self, node_version: str) -> None:
        """Raises NoAnswer if what was started is another node than before, or does not answer as the module does."""
        is_same = self.node_version in ("", node_version)
        self.node_version = node_version
        for name, text, status, answer in TRIALS if is_same else ():
            call, _ = self._asked(name, text.encode("ascii"))
            if call.status == NO_MEMORY and not call.text:
                raise call.no_answer("memory")
            is_same = is_same and (call.status, call.text) == (status, answer.decode("ascii"))
        if not is_same:
            raise self._no_module()

    def _no_module(self) -> NoAnswer:
        return NoAnswer(f"{self.node} does not run {self.path} as node does: a trial answer of it is wrong")

    def _end(self) -> None:
        """Ends node, so that nobody reads what it has not answered yet. The next call begins with a new one."""
        if self._owner == os.getpid():
            self._node.kill()
            self._node.wait()
        self._owner = 0

    @property
    def version(self) -> str:
        """What the module itself calls its version."""
        return self._its_version

    def _read(self, length: int) -> bytes:
        assert self._node.stdout
        data = self._node.stdout.read(length)
        if len(data) < length:
            raise EOFError
        return data

    def _words(self) -> List[str]:
        return self._read(HEAD).decode("ascii").split()

    def _record(self, name: str, data: bytes) -> Call:
        return self._call(name, data)

    def _call(self, name: str, data: bytes, times: int = 0, *_: object) -> Call:
        """What the call of this name returns. `times` is only of use for the library."""
        data = _bytes(data)
        with self._lock:
            try:
                if self._owner != os.getpid():
                    self._begin()
                call, fault = self._asked(name, data)
            except (EOFError, OSError, ValueError) as error:
                self._end()
                raise NoAnswer(f"no answer of {self.path}: {name}: node has ended") from error
            except BaseException:
                self._end()
                raise
        if call.status >= NO_MEMORY:
            raise call.no_answer("memory")
        call.fault = fault if fault.reason else None
        return call

    def _asked(self, name: str, data: bytes) -> Tuple[Call, Fault]:
        """What node answers to one call."""
        assert self._node.stdin
        self._node.stdin.write(f"{name} {len(data)}".ljust(HEAD).encode("ascii") + data)
        self._node.stdin.flush()
        status, length, *fault = map(int, self._words())
        return Call(f"{self.path}: {name}", status, self._read(length)), Fault(*fault)


def found_node() -> str:
    """The node of the path, but not of a relative folder or the current one: who wrote the table may have put it there.

    It is empty if there is none.
    """
    here = os.path.realpath(os.curdir)
    folders = filter(os.path.isabs, os.environ.get("PATH", os.defpath).split(os.pathsep))
    return shutil.which("node", path=os.pathsep.join(each for each in folders if os.path.realpath(each) != here)) or ""


@lru_cache(maxsize=None)
def opened(path: str) -> Optional[Module]:
    """The module at this path. None if it cannot be used here."""
    try:
        return Module(path)
    except OSError:
        return None


@dataclass(frozen=True)
class LoadedModule(LoadedLibrary):
    """The module that was stored with this balisekit. It answers as the program does."""

    kind: ClassVar[str] = "module"

    @classmethod
    def stored(cls) -> Optional[LoadedModule]:
        """The module of this balisekit. None if it is absent, of another version, or cannot be used here."""
        stored = find_program.stored_module()
        module = opened(stored.path) if stored else None
        if stored is None or module is None or module.version != stored.about.get("version"):
            return None
        about = {**stored.about, "node": module.node, "node_version": module.node_version}
        return cls(stored.path, stored.sha256, about, None, find_program.ABOUT)

    @property
    def _library(self) -> Library:
        module = opened(self.path)
        if module is None:
            raise NoAnswer(f"no answer of {self.path}: node does not load it")
        return module
