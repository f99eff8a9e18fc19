"""What scripts/targets builds, as it is run here: under qemu and Wine, in node and in browsers. tests/calls.c and
tests/calls.mjs make the calls of the library. BALISECHECK_TARGETS names the folder of what was built."""
import collections
import contextlib
import functools
import http.server
import os
import pathlib
import re
import shutil
import subprocess
import tempfile
import threading

import pytest

from runner import HERE, TOP

FOLDER = pathlib.Path(os.environ.get("BALISECHECK_TARGETS", TOP / "out" / "targets")).resolve()
ARM, WINDOWS, WASM = (FOLDER / name for name in ("aarch64-linux", "x86_64-windows", "wasm64"))
MODULE = WASM / "balisecheck.mjs"
INCLUDE = TOP / "crates" / "balisecheck_c" / "include"
STRICT = "-std=c11", "-O2", "-Wall", "-Wextra", "-Werror", "-I", INCLUDE
EMULATED = "qemu-aarch64", "-L", "/usr/aarch64-linux-gnu"
FLAG = "--experimental-wasm-memory64"
SECONDS = 600
# The commands and files that each target needs here, and their packages.
QEMU = {"qemu-aarch64": "qemu-user", "/usr/aarch64-linux-gnu/lib/libc.so.6": "libc6-arm64-cross"}
NEEDS = {
    "aarch64": {**QEMU, "aarch64-linux-gnu-gcc": "gcc-aarch64-linux-gnu",
                "/usr/aarch64-linux-gnu/include/stdio.h": "libc6-dev-arm64-cross"},
    "windows": {"wine": "wine", "/usr/lib/wine/wine64": "wine64", "x86_64-w64-mingw32-gcc": "gcc-mingw-w64-x86-64"},
    "node": {"node": "nodejs"}, "chromium": {"chromium": "chromium"}, "firefox": {"firefox-esr": "firefox-esr"}}
# A call of the library by its name, its input, and which request for memory is refused with all later ones.
Call = collections.namedtuple("Call", "name data refused", defaults=(0,))
Answered = collections.namedtuple("Answered", "status text fault requests")
ROOM = tempfile.TemporaryDirectory(prefix="targets-", ignore_cleanup_errors=True)


def need(*targets):
    """Skips the test if nothing was built from these sources, or if something is missing that runs a target."""
    listed, sources = FOLDER.parent / "TARGETS", TOP / "dist" / "sources"
    built = listed.exists() and listed.read_text().split()[1]
    if built != subprocess.check_output([sources], text=True).strip():
        pytest.skip("the program for other systems (scripts/targets, which needs the toolchain)")
    for target in targets:
        for tool, package in NEEDS[target].items():
            if not (shutil.which(tool) or os.path.exists(tool)):
                pytest.skip(f"the program for other systems on {target} ({package})")
    if "node" in targets and not has_memory():
        pytest.skip("the module in node (nodejs 20 or later)")


# ---- commands


@functools.lru_cache(None)
def node():
    """The command of node, with the flag for 64-bit memory if it is known."""
    flag = [FLAG] * (subprocess.run(["node", FLAG, "-e", "0"], capture_output=True, check=False).returncode == 0)
    return ["node", *flag]


@functools.lru_cache(None)
def has_memory():
    """Whether node can load the module."""
    return subprocess.run([*node(), MODULE], capture_output=True, check=False).returncode == 0


@functools.lru_cache(None)
def wine():
    """The command of Wine with a folder of its own, in which nothing of the user's is changed."""
    folder = pathlib.Path(ROOM.name, "wine")
    said = {"WINEPREFIX": str(folder), "WINEDEBUG": "-all", "WINEDLLOVERRIDES": "mscoree,mshtml=", "LC_ALL": "C.UTF-8"}
    os.environ.update({key: value for key, value in said.items() if key != "LC_ALL"})
    quiet = {"stdout": subprocess.DEVNULL, "stderr": subprocess.DEVNULL}
    subprocess.run(["wineboot", "-i"], timeout=SECONDS, check=False, **quiet)
    return ["env", *(f"{key}={value}" for key, value in said.items()), "wine"]


# Under load Wine reports faults of its own threads on standard error. A fault of the program would change its status.
WITHOUT_FAULTS = """said=$(mktemp)
{} 2>"$said"
status=$?
grep -v '^wine: Unhandled page fault' "$said" >&2
rm "$said"
exit $status"""


def script(name, *words, body="exec {}"):
    """A script that runs a command with the words of its own after it, as a path for `run`."""
    path = pathlib.Path(ROOM.name, name)
    quoted = " ".join(f"'{word}'" for word in words)
    command = f'{quoted} "$@"'
    path.write_text(f"#!/bin/sh\n{body.format(command)}\n", "utf-8")
    path.chmod(0o755)
    return path


@functools.lru_cache(None)
def programs(target):
    """The path of a command that runs the program of a target."""
    if target == "aarch64":
        return script("balisecheck-aarch64", *EMULATED, ARM / "balisecheck")
    return script("balisecheck-windows", *wine(), WINDOWS / "balisecheck.exe", body=WITHOUT_FAULTS)


def compiled(compiler, name, *words):
    """tests/calls.c, linked with these words."""
    path = pathlib.Path(ROOM.name, name)
    subprocess.run([compiler, *STRICT, "-o", path, HERE / "calls.c", *words], check=True)
    return path


@functools.lru_cache(None)
def caller(target):
    """The command that answers calls for a target. The memory of an archive can be refused, that of a .so cannot."""
    wrapped = "-Wl,--wrap=malloc,--wrap=realloc"
    if target == "native":
        stored = pathlib.Path(os.environ.get("BALISECHECK_LIBRARY", TOP / "dist" / "x86_64-linux")).resolve()
        return [compiled("cc", "native", wrapped, stored / "libbalisecheck.a")]
    if target == "archive":
        return [*EMULATED, compiled("aarch64-linux-gnu-gcc", "archive", wrapped, ARM / "libbalisecheck.a")]
    if target == "shared":
        words = wrapped, f"-Wl,-rpath,{ARM}", ARM / "libbalisecheck.so.0"
        return [*EMULATED, compiled("aarch64-linux-gnu-gcc", "shared", *words)]
    if target == "windows":
        words = "-D__USE_MINGW_ANSI_STDIO=1", WINDOWS / "balisecheck.lib"
        path = compiled("x86_64-w64-mingw32-gcc", "calls.exe", *words)
        shutil.copy(WINDOWS / "balisecheck.dll", ROOM.name)
        return [*wine(), path]
    return [*node(), HERE / "calls.mjs", MODULE]


# ---- browsers


PAGE = b"""<!doctype html><meta charset=utf-8><title>calls</title><script type=module>
import { answers } from "./calls.mjs";
try {
    const its = await import("./balisecheck.mjs");
    const asked = new Uint8Array(await (await fetch("asked")).arrayBuffer());
    await fetch("answered", { method: "POST", body: answers(its, asked) });
} catch (error) {
    await fetch("failed", { method: "POST", body: String(error) });
}
</script>"""


class Server(http.server.ThreadingHTTPServer):
    """A page that answers calls by the module, and what it answered."""

    def __init__(self, asked):
        super().__init__(("127.0.0.1", 0), Handler)
        self.files = {"/": ("text/html", PAGE), "/asked": ("application/octet-stream", asked),
                      "/calls.mjs": ("text/javascript", (HERE / "calls.mjs").read_bytes()),
                      "/balisecheck.mjs": ("text/javascript", MODULE.read_bytes())}
        self.ended, self.failed, self.answered = threading.Event(), "", b""


class Handler(http.server.BaseHTTPRequestHandler):
    """Gives the files, and takes the answer."""

    def log_message(self, format, *args):  # pylint: disable=redefined-builtin
        """Nothing is logged."""

    def do_GET(self):
        """A file."""
        kind, content = self.server.files.get(self.path, ("text/plain", b""))
        self.send_response(200 if content else 404)
        self.send_header("Content-Type", kind)
        self.send_header("Content-Length", str(len(content)))
        self.end_headers()
        self.wfile.write(content)

    def do_POST(self):
        """The answers, or why there are none."""
        content = self.rfile.read(int(self.headers["Content-Length"]))
        if self.path == "/failed":
            self.server.failed = content.decode()
        self.server.answered = content
        self.send_response(204)
        self.end_headers()
        self.server.ended.set()


def in_browser(name, asked):
    """What the module answers in a browser, which has a profile of its own."""
    with tempfile.TemporaryDirectory(prefix="browser-", ignore_cleanup_errors=True) as profile, Server(asked) as server:
        threading.Thread(target=server.serve_forever, daemon=True).start()
        address = f"http://127.0.0.1:{server.server_port}/"
        command = ["firefox-esr", "--headless", "--no-remote", "--profile", profile, address]
        if name == "chromium":
            command = ["chromium", "--headless", "--no-sandbox", "--disable-gpu", "--disable-dev-shm-usage",
                       f"--user-data-dir={profile}", address]
        quiet = {"stdout": subprocess.DEVNULL, "stderr": subprocess.DEVNULL, "start_new_session": True}
        with subprocess.Popen(command, **quiet) as browser:
            has_ended = server.ended.wait(SECONDS)
            with contextlib.suppress(ProcessLookupError):
                os.killpg(browser.pid, 15)
        server.shutdown()
        assert has_ended and not server.failed, server.failed or f"no answer in {SECONDS} s"
        return server.answered


# ---- answers


def answers(target, calls):
    """What the library of a target answers to these calls."""
    asked = b"".join(f"{call.name} {len(call.data)} {call.refused}\n".encode() + call.data for call in calls)
    if target in ("chromium", "firefox"):
        written = in_browser(target, asked)
    else:
        ran = subprocess.run(caller(target), input=asked, stdout=subprocess.PIPE, timeout=SECONDS, check=False)
        written = ran.stdout
        assert ran.returncode == 0, (target, ran.returncode)
    found, at = [], 0
    while at < len(written):
        end = written.index(b"\n", at)
        status, length, *numbers = map(int, re.split(rb"\s+", written[at:end].strip()))
        at = end + 1 + length
        found.append(Answered(status, written[end + 1:at], tuple(numbers[:3]), numbers[3]))
    assert len(found) == len(calls), (target, len(found), len(calls))
    return found


def differences(calls, ours, others):
    """The calls whose answers differ."""
    return [(call, one, other) for call, one, other in zip(calls, ours, others) if one[:3] != other[:3]]
