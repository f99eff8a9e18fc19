"""Whose code is in the program and in the library for C, by THIRD-PARTY.md and the SPDX document, what the programs can
reach, and how examples name what they fetch."""
import json
import os
import re
import runpy
import shutil
from hashlib import sha256
from pathlib import Path

import pytest

from runner import HERE, TOP, crate_uses, program, run

PAGE, STORED = (TOP / "THIRD-PARTY.md").read_text("utf-8"), TOP / "dist/x86_64-linux"
LIBRARY = Path(os.environ.get("BALISECHECK_LIBRARY") or STORED)
SPDX = runpy.run_path(str(TOP / "dist/pack/spdx.py"))
ROWS = SPDX["listed"](PAGE)
needs_nm = pytest.mark.skipif(not shutil.which("nm"), reason="functions of others in the program (binutils)")


def nm(path, *options):
    """What nm lists of a file."""
    ran = run((*options, path), path="nm")
    assert ran.status == 0, ran.stderr
    return ran.stdout


def called(path):
    """The libraries of others that have functions in a file."""
    return {*re.findall(r"(?m)^[0-9a-f]* [tTwW] ([a-z]\w*)::", nm(path))} - {*crate_uses()}


def used(crate):
    """The libraries of others that a crate uses, also by way of other crates."""
    uses = crate_uses()
    return {name for it in uses[crate] for name in (used(it) if it in uses else {it})}


@needs_nm
@pytest.mark.parametrize("column, path", [("program", Path(program())), ("library", LIBRARY / "libbalisecheck.a")])
def test_functions(column, path):
    """The page has `functions` for the libraries that have some. What has `none` is named nowhere in the file."""
    assert {row["name"] for row in ROWS if row[column] == "functions"} == called(path) and len(ROWS) > 15
    named = {row["name"] for row in ROWS if row[column] not in ("functions", "inlined")} - {"gcc", "glibc"}
    data = path.read_bytes() + (path.with_suffix(".so.0").read_bytes() if column == "library" else b"")
    assert [name for name in named if name.encode() in data] == []
    assert named == ({"clap", "strsim"} if column == "library" else {"indexmap"})


@pytest.mark.parametrize("column, crate", [("program", "balisecheck"), ("library", "balisecheck_c")])
def test_crates(column, crate):
    """Each library that crates list has its row, and is used. The library for C does not read a command line."""
    rows = {row["name"]: row[column] for row in ROWS}
    unused = {name for name in used(crate) if rows[name] == "none"}
    assert unused == ({"clap"} if column == "library" else set())
    assert {*rows.values()} <= {*SPDX["RELATIONS"], "none", "dynamic, start-up code"}


@needs_nm
def test_start():
    """The start-up code is that of the GCC that the page names, and the library has none."""
    data, found = Path(program()).read_bytes(), re.search(r"GCC (\d+\.\d+) of Ubuntu", PAGE)[1]
    assert b"GCC: (Ubuntu " + found.encode() in data and "_start" in nm(program())
    assert "_start" not in nm(LIBRARY / "libbalisecheck.a")
    assert b"GCC: (" not in (LIBRARY / "libbalisecheck.so.0").read_bytes()


@needs_nm
def test_reach():
    """The program can open no file and no connection, and start no process. The library only asks for memory."""
    memory = {"malloc", "realloc", "free", "memcpy", "memmove", "memset"}
    streams = {"read", "write", "__write", "lseek", "__errno_location", "__sysv_signal"}
    start = {"_ITM_deregisterTMCloneTable", "_ITM_registerTMCloneTable", "__cxa_finalize", "__gmon_start__",
             "__libc_start_main", "__x86_get_cpuid_feature_leaf"}
    for path, known in ((program(), memory | streams | start), (LIBRARY / "libbalisecheck.so.0", memory)):
        listed = {*re.findall(r"(?m)^ +[Uw] (\w+)", nm(path, "-D", "--undefined-only"))}
        assert "malloc" in listed and listed <= known, path
    text = "\n".join(path.read_text("utf-8") for path in (TOP / "companion/src").rglob("*.py"))
    modules = {*re.findall(r"(?m)^ *(?:from|import) ([\w.]+)", text)}
    networks = "socket", "ssl", "http", "urllib.request", "ftplib", "smtplib", "asyncio", "xmlrpc", "requests"
    assert "ctypes" in modules and not [it for it in modules if it.startswith(networks)]


OTHERS = ("aarch64-linux/balisecheck", "aarch64-linux/libbalisecheck.so.0", "x86_64-windows/balisecheck.exe",
          "x86_64-windows/balisecheck.dll", "x86_64-windows/balisecheck.lib", "wasm64/balisecheck.mjs")


@pytest.fixture(scope="module", name="document")
def a_document(tmp_path_factory):
    """The SPDX document of this tree, if ABOUT also lists these files for other systems."""
    tree, known = tmp_path_factory.mktemp("tree"), {**os.environ, "SOURCE_DATE_EPOCH": "1700000000"}
    for name in ("THIRD-PARTY.md", "companion"):
        (tree / name).symlink_to(TOP / name)
    (tree / "dist/x86_64-linux").mkdir(parents=True)
    about = re.sub("(?m)^.*/.*\n", "", (STORED / "ABOUT").read_text("utf-8"))
    lines = "".join(f"{name} {sha256(name.encode()).hexdigest()}\n" for name in OTHERS)
    (tree / "dist/x86_64-linux/ABOUT").write_text(about + lines, "utf-8")
    ran = [run((tree,), path=TOP / "dist/pack/spdx.py", env=known) for _ in range(2)]
    assert ran[0].status == 0 and ran[0] == ran[1]
    return json.loads(ran[0].stdout)


def test_spdx(document):
    """The document has the form that spdx-2.3.json describes. Its identifiers are unique, and all are connected."""
    jsonschema = pytest.importorskip("jsonschema")
    schema = json.loads((HERE / "spdx-2.3.json").read_text("utf-8"))
    check = jsonschema.Draft202012Validator(schema)
    assert [error.message for error in check.iter_errors(document)] == []
    names = [it["SPDXID"] for it in document["packages"]]
    ends = {it[key] for it in document["relationships"] for key in ("spdxElementId", "relatedSpdxElement")}
    assert len({*names}) == len(names) and ends == {*names, "SPDXRef-DOCUMENT"}
    assert document["creationInfo"]["created"] == "2023-11-14T22:13:20Z"
    for key in ("SPDXID", "documentNamespace", "packages"):
        assert not check.is_valid({name: value for name, value in document.items() if name != key})
    document = json.loads(json.dumps(document))
    document["packages"][0]["externalRefs"][0]["referenceLocator"] = "pkg:cargo/clap"
    assert not check.is_valid(document)


def test_licences(document):
    """Each licence is an expression of SPDX, or not known."""
    reason = "expressions of licences (python3-license-expression)"
    spdx = pytest.importorskip("license_expression", reason=reason).get_spdx_licensing()
    declared = {it["licenseDeclared"] for it in document["packages"]} - {"NOASSERTION"}
    assert len(declared) > 4 and [error for it in declared for error in spdx.validate(it).errors] == []
    assert spdx.validate("MIT OR none").errors


def test_components(document):
    """The document has program, library, balisekit, all libraries of the page, and what balisekit can use."""
    packages = {it["name"]: it for it in document["packages"]}
    python = {name for name in SPDX["PYTHON"] if re.search(rf"\b{name}\b", PAGE)}
    files, others = {"balisecheck", "libbalisecheck.a", "libbalisecheck.so.0"}, {it for it in OTHERS if it[-4:] != ".lib"}
    assert {*packages} == {*files, *others, "balisekit", *(row["name"] for row in ROWS), *python}
    for name in files:
        assert packages[name]["checksums"][0]["checksumValue"] == sha256((STORED / name).read_bytes()).hexdigest()
    project = (TOP / "companion/pyproject.toml").read_text("utf-8")
    wanted = {*re.findall(r'"(\w+)[>;" ]', "".join(re.findall(r"(?m)^(?:dependencies|xlsx|toml) = (.*)$", project)))}
    assert wanted <= python and "jinja2" in wanted
    in_program, in_library = (linked(document, name) for name in ("balisecheck", "libbalisecheck.so.0"))
    assert in_program - in_library == {f"SPDXRef-{name}" for name in ("clap", "strsim", "glibc", "gcc")}
    assert in_library - in_program == {"SPDXRef-indexmap"}
    crates = {name for row in ROWS if row["version"][0].isdigit() for name in SPDX["CRATES"].get(row["name"], [])}
    assert crates and all(f"`{name.partition('@')[0]}`" in PAGE for name in crates)


def linked(document, name, kind="STATIC_LINK"):
    """What a file has as a part, or loads."""
    identifier = SPDX["identifier"](name)
    return {it["relatedSpdxElement"] for it in document["relationships"]
            if (it["spdxElementId"], it["relationshipType"]) == (identifier, kind)}


def test_other_systems(document):
    """Files for other systems have the parts of the program or of the library, without start-up code of others."""
    program_parts = linked(document, "balisecheck") - {"SPDXRef-glibc", "SPDXRef-gcc"}
    for name in OTHERS[:-2] + OTHERS[-1:]:
        is_program = "/balisecheck" in name and name[-4:] not in (".dll", ".mjs")
        assert linked(document, name) == (program_parts if is_program else linked(document, "libbalisecheck.so.0"))
        assert linked(document, name, "DYNAMIC_LINK") == ({"SPDXRef-glibc"} if "aarch64" in name else set())


def test_pinned():
    """An example names by digest what it fetches, or says why not, and how to find the digest."""
    paths = [*TOP.glob("examples/ci/**/*.yml"), *TOP.glob("examples/container/*")]
    fetched = re.compile(r"\b(?:uses|image|container|FROM):? +(?!scratch)([^\s,}]+)")
    for path in paths:
        text = path.read_text("utf-8")
        loose = [it for it in fetched.findall(text) if not re.search(r"@(?:sha256:)?[0-9a-f]{40,64}$", it)]
        notes = " ".join(line.lstrip("# ") for line in text.splitlines() if line.startswith("#"))
        assert fetched.findall(text) and (not loose or re.search(r"by (?:its |their )?tags?\b", notes)), (path, loose)
    assert len(paths) == 4
