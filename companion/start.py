"""Starts balisekit from its sources. ./balisekit runs this file, and its comment states which interpreter is taken."""
import os
import signal
import sys

if signal.getsignal(signal.SIGINT) is signal.default_int_handler:
    signal.signal(signal.SIGINT, signal.SIG_DFL)  # (no traceback: balisekit.start)
# An isolated interpreter does not read the variables that keep compiled modules away from the sources.
sys.dont_write_bytecode = bool(os.environ.get("PYTHONDONTWRITEBYTECODE") or os.environ.get("PYTHONPYCACHEPREFIX"))
HERE = os.path.dirname(os.path.abspath(__file__))
DEBIAN = "/usr/bin/python3"
DEBIAN_PACKAGES = "/usr/lib/python3/dist-packages"


def is_workbook(word):
    """Whether a word has the name of a workbook, or names a file that begins as one, whatever its name is."""
    path = word.partition("=")[2] if word.startswith("--") else word
    if path.lower().endswith(".xlsx"):
        return True
    try:
        if not os.path.isfile(path):
            return False
        with open(path, "rb") as file:
            return file.read(4) == b"PK\x03\x04"
    except (OSError, ValueError):  # ValueError for a NUL in the path
        return False


def packages_of(words):
    """The packages that a command with these options needs."""
    needed = []
    if "draw" in words or "report" in words or any(word.startswith("--html") for word in words):
        needed.append("jinja2")
    if any(word.startswith("--xlsx") or is_workbook(word) for word in words):
        needed.append("openpyxl")
    if any(word.startswith("--columns") for word in words) and sys.version_info < (3, 11):
        needed.append("tomli")
    return needed


def serves(packages):
    """Whether this interpreter is new enough and finds the packages."""
    if sys.version_info < (3, 9):
        return False
    sys.path[0] = os.path.join(HERE, "src")
    from balisekit.start import add_user_packages

    add_user_packages()
    if packages:
        from importlib.util import find_spec

        return all(find_spec(name) for name in packages)
    return True


def debian_serves(packages):
    """Whether Debian's interpreter is new enough and finds the packages, by the names of files."""
    version = os.path.realpath(DEBIAN).rpartition("python3.")[2]
    own = ["tomli"] if version.isdigit() and int(version) >= 11 else []
    found = all(name in own or os.path.isdir(os.path.join(DEBIAN_PACKAGES, name)) for name in packages)
    return found and version.isdigit() and int(version) >= 9


def start():
    """Runs the command, by Debian's interpreter if only that one serves. It is isolated as the one of ./balisekit."""
    packages, is_named = packages_of(sys.argv[1:]), os.environ.get("BALISEKIT_PYTHON")
    if not serves(packages) and not is_named and debian_serves(packages):
        os.environ["BALISEKIT_PYTHON"] = DEBIAN
        os.execv(DEBIAN, [DEBIAN, "-E", "-s"] + sys.argv)
    if sys.version_info < (3, 9):
        sys.stderr.write("balisekit: it needs Python 3.9 or later, and " + sys.executable + " is older\n")
        return 3
    from balisekit.start import main_of_clone

    return main_of_clone()


try:
    status = start()
except Exception as error:
    # (a traceback would end with status 1, as for findings: memory is short, or a module is damaged)
    sys.stderr.write("balisekit: it does not start: " + type(error).__name__ + ": " + str(error) + "\n")
    status = 3
sys.exit(status)
