"""How balisekit starts, from a clone, a package or a wheel: without the modules of others, and quiet if interrupted.

Until a command runs, SIGINT ends the process as the system does, which a shell reports as status 130. Only modules of
Python, and of the interpreter's own packages and balisekit's folder after them, are imported.
"""
from __future__ import annotations

import _signal as signal  # type: ignore[import]  # (built in: no file takes its place)
import os
import sys

PACKAGE = os.path.dirname(os.path.abspath(__file__))


def main() -> int:
    """What the command calls that pip makes of the sources. (The one of a wheel runs this file itself.)"""
    return _started(bool(os.environ.get("PYTHONPATH")))


def main_of_module() -> int:
    """What `python3 -m balisekit` calls, for which the current folder comes before Python's own modules."""
    return _started(True)


def main_of_clone() -> int:
    """What companion/start.py calls. Its interpreter is isolated by ./balisekit."""
    return _started(False)


def add_user_packages() -> None:
    """Lets packages of `pip install --user` be found, after all others, and without running their .pth files."""
    import site

    folder = site.getusersitepackages()
    if sys.prefix == sys.base_prefix and folder not in sys.path and os.path.isdir(folder):
        sys.path.append(folder)


def _started(is_open: bool) -> int:
    """Runs the command. If others could replace modules, it starts the interpreter once more, without them."""
    if signal.getsignal(signal.SIGINT) is signal.default_int_handler:
        signal.signal(signal.SIGINT, signal.SIG_DFL)
    if is_open and not sys.flags.ignore_environment and sys.executable:
        # (the start of an interpreter that is interrupted ends with a traceback and status 1, so SIGINT waits)
        signal.pthread_sigmask(signal.SIG_BLOCK, [signal.SIGINT])
        os.execv(sys.executable, [sys.executable, "-I", os.path.abspath(__file__), *sys.argv[1:]])
    signal.pthread_sigmask(signal.SIG_UNBLOCK, [signal.SIGINT])
    try:
        from balisekit.cli.main import main as run

        return run()
    except Exception as error:
        # (a traceback would end with status 1, as for findings: memory is short, or a module is damaged)
        return _does_not_start(error)


def _does_not_start(error: Exception) -> int:
    """Reports why there is no answer."""
    sys.stderr.write(f"balisekit: it does not start: {type(error).__name__}: {error}\n")
    return 3


def _load_package() -> None:
    """Imports the package of this file, whichever others are installed. Those beside it come after all others."""
    from importlib.util import module_from_spec, spec_from_file_location

    init = os.path.join(PACKAGE, "__init__.py")
    spec = spec_from_file_location("balisekit", init, submodule_search_locations=[PACKAGE])
    assert spec and spec.loader
    sys.modules["balisekit"] = module_from_spec(spec)
    spec.loader.exec_module(sys.modules["balisekit"])
    sys.path.append(os.path.dirname(PACKAGE))
    add_user_packages()


if __name__ == "__main__":
    sys.dont_write_bytecode = any(map(os.environ.get, ("PYTHONDONTWRITEBYTECODE", "PYTHONPYCACHEPREFIX")))
    try:
        _load_package()
        status = _started(False)
    except Exception as failed:
        status = _does_not_start(failed)
    sys.exit(status)
