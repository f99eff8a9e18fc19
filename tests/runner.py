"""What the tests share: the program and its runs, the texts of tests/cases, JSON in another spelling, and from which
other folders they import.

BALISECHECK names the program. Otherwise it is the one that ./balisecheck would run.
"""
import collections
import functools
import json
import os
import pathlib
import re
import subprocess
import sys

HERE = pathlib.Path(__file__).resolve().parent
TOP, CASES, EXAMPLES = HERE.parent, HERE / "cases", HERE.parent / "examples"
sys.path[1:1] = [str(TOP / it) for it in ("companion/src", "scripts", "bench")]
MEMORY, DEVICE = "balisecheck: memory\n", "balisecheck: device\n"
SECONDS = 60  # that a run may take
Answer = collections.namedtuple("Answer", "status stdout stderr")


def crate_uses(top=TOP):
    """The libraries that each crate uses, in the order of crates.txt."""
    text = (top / "crates.txt").read_text(encoding="utf-8")
    return {crate: uses.split() for crate, uses in re.findall(r"(?m)^(\w+)[^:#\n]*:([^#\n]*)", text)}


# ---- the program


@functools.lru_cache(None)
def program():
    """The path of the program."""
    known = {**os.environ, "BALISECHECK_PATH": "1"}
    named = os.environ.get("BALISECHECK") or subprocess.check_output([TOP / "balisecheck"], env=known, text=True)
    return str(pathlib.Path(named.strip()).absolute())


def in_bytes(text):
    """A text as the bytes that it was read from."""
    return text if isinstance(text, bytes) else text.encode(errors="surrogateescape")


def run(words, data=b"", limits="", path=None, **options):
    """The answer of the program, or of the one at `path`, to this input, after the shell commands in `limits`, and with
    these options of `subprocess.run`. Its status is None if it takes too long."""
    command = [path or program(), *words]
    command = ["sh", "-c", f'{limits}\nexec "$0" "$@"', *command] if limits else command
    usual = {"stdout": subprocess.PIPE, "stderr": subprocess.PIPE, "timeout": SECONDS, "check": False}
    try:
        ran = subprocess.run(command, input=in_bytes(data), **{**usual, **options})
    except subprocess.TimeoutExpired as late:
        return Answer(None, "", f"no answer in {late.timeout} s\n")
    out, err = ((it or b"").decode(errors="surrogateescape") for it in (ran.stdout, ran.stderr))
    return Answer(ran.returncode, out, err)


def answered(stdout, stderr=""):
    """The answer with these outputs, and with the status that goes with them."""
    last = stdout.rstrip("\n").split("\n")[-1]
    status = 3 if stderr in (MEMORY, DEVICE) else 2 if last.startswith("refused: ") else int(stdout.startswith("no: "))
    return Answer(status, stdout, stderr)


# ---- the texts of the cases


def blocks(name):
    """The blocks of lines between empty lines of a file of cases, without comments."""
    lines = [line for line in (CASES / name).read_text(encoding="utf-8").split("\n") if not line.startswith("#")]
    return [block.split("\n") for block in "\n".join(lines).strip("\n").split("\n\n")]


def marked(lines):
    """The texts of lines by the marks in front of them. `<<` is a `<` without a line end, and these have escapes."""
    texts = collections.defaultdict(str)
    for mark, _, rest in (line.partition(" ") for line in lines):
        texts[mark[:1]] += in_full(rest) + "\n" * (mark != "<<")
    texts["<"] = texts["<"].encode().decode("unicode_escape").encode("latin-1").decode(errors="surrogateescape")
    return texts


def in_full(line):
    """The line in full: `<TEXT N>` is N times the text, innermost first; dots a digit up to a telegram's next part."""
    repeated = re.compile(r"<([^<>]*) (\d+)>")
    while repeated.search(line):
        line = repeated.sub(lambda found: found[1] * int(found[2]), line)
    return line if ".." not in line else re.sub(
        r"\b(\w+)(\.{2,3})(\w) ?(\w*)",
        lambda found: found[1].ljust(52 if found[2] == ".." else 206, found[3]) + found[4], line)


def flipped(digits, place):
    """The digits with one of their bits turned."""
    at, bit = divmod(place, 4)
    return f"{digits[:at]}{int(digits[at], 16) ^ 8 >> bit:x}{digits[at + 1:]}"


def respelled(line):
    """The same JSON with its keys in the reverse order, blanks, and escapes. Numbers stay as they are written."""
    value = json.loads(line, object_pairs_hook=lambda pairs: dict(reversed(dict(pairs).items())),
                       parse_int="@{}@".format, parse_float="@{}@".format)
    text = json.dumps(value, indent="\t", separators=(" ,", " : ")).replace("\n", " ")
    text = re.sub('"@([^"]*)@"', r"\1", text)
    return re.sub(r'"(\w)', lambda first: f'"\\u{ord(first[1]):04X}', f" {text}\t")
