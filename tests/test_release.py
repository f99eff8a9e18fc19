"""A release of `scripts/release.sh --try`: each of its files is installed and used in a folder of its own."""
import importlib.util
import itertools
import json
import os
import platform
import re
import shutil
from hashlib import sha256
from pathlib import Path
from urllib.parse import unquote

import pytest

import targets
from runner import TOP, program
from test_recipes import FILES, shown
from tiny import attempt, sh, write

# A release is made once, for all tests: their mark keeps them in one process of xdist.
pytestmark = [pytest.mark.slow, pytest.mark.xdist_group("release")]
VERSION, STORED = (TOP / "VERSION").read_text("utf-8").strip(), "dist/x86_64-linux"
# The commands and modules that are needed, and their packages.
NEEDS = {"git": "git", "help2man": "help2man", "dpkg-deb": "dpkg",
         "hatchling": "python3-hatchling", "pip": "python3-pip", "jinja2": "python3-jinja2"}
# A clone's manual page of balisekit has no help of single commands here, which would take long.
TOOLS = {"help": 'case $* in *.py" --"* | "-I -c "*) exec /usr/bin/python3 "$@" ;; esac\n'}
NO_RULES = ("refused", "not-judged", "not-compared", "entry-at-fault")  # (results of SARIF that have no page)
INSTALL = "-m pip install -q --no-index --no-deps --no-compile --disable-pip-version-check {}"
HERE, ARM, ANY = "*-manylinux_2_34_x86_64.whl", "*-manylinux_2_17_aarch64.whl", "*-none-any.whl"
# A root of Debian for aarch64 with python3, whose programs qemu runs (docs/contributing/testing.md).
ARM_ROOT = os.environ.get("BALISECHECK_ARM_ROOT")
# It counts how many processes a check starts.
COUNT = """import contextlib, io, sys
from balisekit.cli.main import main
started = []
sys.addaudithook(lambda event, _: started.append(event) if event in ("os.posix_spawn", "subprocess.Popen") else None)
with contextlib.redirect_stdout(io.StringIO()) as said, contextlib.suppress(SystemExit):
    main(sys.argv[1:])
print(len(started), said.getvalue(), sep="\\n", end="")
"""
# A user's script, the last line of which is wrong.
SCRIPT = """import balisekit
result = balisekit.check("line.csv", program=balisekit.Program.find())
for found in result.findings:
    print(found.rule, found.sentence)
difference: int = balisekit.diff(result, result)
"""


def text_of(path):
    return path.read_text("utf-8")


def sum_of(path):
    return sha256(path.read_bytes()).hexdigest()


def shows(page, folder, first="/usr/bin"):
    """Commands of a page write what it shows in this folder, whatever their status, with another first on the path."""
    for commands, wanted in shown(page):
        assert attempt(folder, f"set +e; PATH='{first}':$PATH\n{commands}")[1] == wanted


def has_manuals(prefix):
    """Both manual pages can be read."""
    for name in ("balisecheck", "balisekit"):
        assert re.search(r"(?m)^\.TH ", sh(prefix / "share/man/man1", f"zcat -f {name}.1*"))


def serves(made, prefix):
    """Both commands of a prefix answer and have manual pages. They name, and are, the program of the release."""
    user, commands = made.with_name("a user"), prefix / "bin"
    user.mkdir(exist_ok=True)
    shows(made / "README.md", user, commands)
    sources, whole = sh(TOP, "dist/sources").strip(), sum_of(commands / "balisecheck")
    said = sh(user, f"'{commands}/balisekit' --version && '{commands}/balisekit' report line.csv --html -")
    assert f"balisekit {VERSION}\nbalisecheck {VERSION}, sources {sources}, program {whole}\n" in said
    assert said.count(sources) > 1 and said.count(whole) > 1 and whole == sum_of(Path(program()))
    has_manuals(prefix)


def without_opening(said):
    """An answer without the line that names the program or the library."""
    return re.sub("(?m)^(lib)?balisecheck.* SHA-256 .*$", "", said)


def has_library(made):
    """Whether the release has the library for C: only one of the stored program has it."""
    return (made.with_name("tree") / STORED / "libbalisecheck.so.0").exists()


def has_others(made):
    """Whether the release has archives for other systems: only one of the stored program, and if they were built."""
    return "\nwasm64/" in text_of(made.with_name("tree") / STORED / "ABOUT")


def has_page(made):
    """Whether the release has the page for browsers, which is one of these files."""
    return "\nbrowser/" in text_of(made.with_name("tree") / STORED / "ABOUT")


def has_live_pages(folder, is_installed=True):
    """Links of pages lead to files. Only for a clone do pages of what is installed tell commands in the folder."""
    for page in [*folder.rglob("*.md"), *folder.rglob("METADATA")]:
        links = re.findall(r"\]\(([^)#\s]+)", text_of(page))
        assert [link for link in links if "://" not in link and not (page.parent / link).exists()] == [], page
        for line in re.findall(r"(?m)^(?:.*[^.\n])?\./balise.*$", text_of(page)) if is_installed else ():
            assert line[0] != "$" and re.search("clone|repository", line), (page, line)


def links_pages_of_rules(room, prefix):
    """SARIF of what is installed leads from each rule to its page."""
    status, said = attempt(room, f"'{prefix}/bin/balisekit' check '{TOP}/examples/links/line.csv' --sarif - 2>/dev/null")
    rules = json.loads(said)["runs"][0]["tool"]["driver"]["rules"]
    named = {it["id"]: unquote(it["helpUri"]) for it in rules if it["id"] not in NO_RULES}
    assert status == 0 and len(named) > 40
    for name, address in named.items():
        assert address == f"file://{prefix}/share/doc/balisecheck/docs/rules/{name}.md"
        assert text_of(Path(address[7:])).startswith(f"# {name}: ")


@pytest.fixture(scope="module", name="made")
def a_release(tmp_path_factory):
    """The folder of a release, beside one made at the same time, its unpacked tarball, and what a clone installs."""
    lacking = [NEEDS[it] for it in NEEDS if not (shutil.which(it) or importlib.util.find_spec(it))]
    if lacking or not (TOP / ".git").exists():
        pytest.skip(f"a release ({', '.join(lacking) or 'git'})")
    room = tmp_path_factory.mktemp("a room")
    made, tools = room / "made", room / "tools"
    for name, text in TOOLS.items():
        write(tools / name, f"#!/bin/sh\n{text}")
    with pytest.MonkeyPatch.context() as patch:
        patch.setenv("PATH", f"{tools}:/usr/bin:/bin")
        patch.setenv("DPKG_DEB_COMPRESSOR_LEVEL", "1")
        patch.delenv("PYTHONDONTWRITEBYTECODE", raising=False)
        release = f"BALISECHECK='{program()}' scripts/release.sh --try"
        assert sh(TOP, f"{release} '{made}' & {release} '{room / 'again'}'; wait").count("written: ") == 2
        sh(TOP, f"BALISEKIT_PYTHON='{tools}/help' scripts/install.sh '{room / 'clone'}'")
        sh(room, "mkdir tree && tar -xzf made/*-x86_64-linux*.tar.gz -C tree --strip-components=1")
        yield made


def test_files(made):
    """Two releases are equal, byte for byte. Their README names files that are there. A full folder is refused. What a
    clone installs has manual pages."""
    name = f"balisecheck-{VERSION}-x86_64-linux-untested.tar.gz"
    with_library = ["libbalisecheck-dev", "libbalisecheck0"] if has_library(made) else []
    others = [f"balisecheck-{VERSION}-{it}" for it in (
        "aarch64-linux-untested.tar.gz", "x86_64-windows-untested.zip")] if has_others(made) else []
    others += [f"balisecheck-{VERSION}-untested.tgz",
               *(f"balisekit-{VERSION}-0untested-py3-none-{it}.whl" for it in ("manylinux_2_17_aarch64", "any"))
               ] if has_others(made) else []
    others += [f"balisecheck-{VERSION}-untested.html"] if has_page(made) else []
    assert sh(made.parent, "diff -r made again") == ""
    assert attempt(TOP, f"scripts/release.sh --try '{made}'") == (1, f"release: {made} is not empty\n")
    assert sorted(os.listdir(made)) == sorted([
        "README.md", "SHA256SUMS", f"balisecheck-{VERSION}-untested.spdx.json", name, f"{name}.sha256",
        f"balisecheck_{VERSION}_amd64-untested.deb",
        f"balisekit-{VERSION}-0untested-py3-none-manylinux_2_34_x86_64.whl",
        *(f"{it}_{VERSION}_amd64-untested.deb" for it in with_library), *others])
    assert sh(made, "sha256sum --quiet -c SHA256SUMS *.tar.gz.sha256") == ""
    readme = text_of(made / "README.md")
    has_manuals(made.with_name("clone"))
    assert "\n**Files whose names end in `-untested`" in readme and "@" not in readme
    assert {*re.findall(r"\bbalise\w+[-_]0[-.\w]*\.(?:deb|whl|tar\.gz|tgz|zip|json)", readme)} <= {*os.listdir(made)}


def test_tarball(made):
    """What the tarball has, and what its pages name. It is installed, used and uninstalled."""
    tree = made.with_name("tree")
    assert sh(tree, "sha256sum --quiet -c SHA256SUMS") == ""
    if sum_of(tree / "balisecheck") == sum_of(TOP / STORED / "balisecheck"):
        # (the page for browsers is the one that was built, whose texts can have changed since it was stored)
        texts = [re.sub(r"(?m)^(browser/\S+) .*", r"\1", text_of(it / STORED / "ABOUT")) for it in (tree, TOP)]
        about, stored = (text.partition("\nkit ")[2].splitlines() for text in texts)
        own = [line for line in stored if "/" not in line]  # (the other files are here if scripts/targets built them)
        header = "crates/balisecheck_c/include/balisecheck.h"
        assert about in (stored, own) and all(sum_of(tree / name) == sum_of(TOP / name) for name in (
            header, f"{STORED}/libbalisecheck.a", f"{STORED}/libbalisecheck.so.0"))
    readme = text_of(tree / "README.md")
    assert "\n**This is a trial" in readme and "@" not in readme
    shows(tree / "README.md", tree)
    has_live_pages(tree, is_installed=False)
    prefix = made.with_name("a prefix")
    older = prefix / "share/balisecheck/companion/src/balisekit/older.py"
    sh(tree, f"./install.sh '{prefix}' && touch '{older}' && ./install.sh '{prefix}'")
    assert not older.exists()
    serves(made, prefix)
    uninstall = re.search("To uninstall it from there: `([^`]*)`", readme)[1]
    assert sh(tree, uninstall.replace("PREFIX", f"'{prefix}'")) == sh(prefix, "find . ! -type d") == ""


def test_older_system(made):
    """Where the C library is too old nothing is installed, and both commands report what the program needs."""
    tree, prefix = made.with_name("an old tree"), made.with_name("no prefix")
    sh(made, f"cp -r ../tree '{tree}'")
    program, about = tree / "balisecheck", tree / STORED / "ABOUT"
    before = sum_of(program)
    program.write_bytes(program.read_bytes().replace(b"GLIBC_2.34", b"GLIBC_9.34"))
    about.write_text(text_of(about).replace(before, sum_of(program)).replace("\nglibc 2.34\n", "\nglibc 9.34\n"), "utf-8")
    needs = f"does not start here: it needs x86-64-v2 and glibc 9.34 or later, and this is {platform.machine()} with " \
        f"{' '.join(platform.libc_ver())}: "
    for command, first in ((f"./install.sh '{prefix}'", "install: not installed, because balisecheck "),
                           ("./balisekit check --timeout 60 examples/table/line.csv", f"balisekit: {program} ")):
        status, said = attempt(tree, command)
        assert status == 3 and said.startswith(first + needs) and "`GLIBC_9.34' not found" in said
        assert said.count("\n") == 1 and not prefix.exists()


@pytest.fixture(scope="module", name="venv")
def a_venv(made):
    """A venv with the wheel, which was installed without network."""
    venv = made.with_name("a venv")
    sh(made, f"python3 -m venv --without-pip --system-site-packages '{venv}' && '{venv}/bin/python' {INSTALL.format(HERE)}")
    return venv


def package_of(venv):
    """The folder of balisekit in a venv."""
    return next(venv.glob("lib/python3*/site-packages/balisekit"))


def test_wheel(made, venv):
    """The wheel has the sources of balisekit and its start script as they are, with ABOUT, RELEASES and the library."""
    tree, package = made.with_name("tree"), package_of(venv)
    files = {"RELEASES": tree / "dist/RELEASES", **{it: tree / STORED / it for it in ("ABOUT", "libbalisecheck.so.0")}}
    added = {it for it, path in files.items() if path.exists()}
    assert {"ABOUT", "RELEASES"} <= added and all(sum_of(package / it) == sum_of(files[it]) for it in added)
    differ = sh(tree, f"diff -r -x __pycache__ companion/src/balisekit '{package}' || true").splitlines()
    assert {*differ} == {f"Only in {package}: {it}" for it in added}
    assert (package / "py.typed").exists()
    # (companion/tests/installed.py makes the same of the sources)
    assert sum_of(venv / "bin/balisekit") == sum_of(tree / "balisekit") and [*venv.rglob("entry_points.txt")] == []
    assert all([*venv.rglob(name)] for name in ("LICENSE-MIT", "THIRD-PARTY.md"))
    has_live_pages(venv)
    links_pages_of_rules(made, venv)
    (metadata,) = map(text_of, venv.rglob("balisekit-*.dist-info/METADATA"))
    # An expression of licences would need version 2.4: twine of Debian 13 refuses it here, that of Debian 12 does not.
    assert metadata.startswith("Metadata-Version: 2.1\n") and "\nLicense: MIT OR Apache-2.0\n" in metadata
    serves(made, venv)


@pytest.mark.parametrize("options", ["--user", "--prefix '{}'", "--target '{}'"])
def test_wheel_beside_no_interpreter(options, made, tmp_path):
    """The command answers wherever pip puts it, through a link, and beside files that have the names of modules."""
    room = tmp_path / "a room"
    write(room / "re.py", "open('evil', 'w').close(); raise SystemExit(0)")
    managed = "--break-system-packages" if "break-system" in sh(made, "python3 -m pip install --help") else ""
    sh(made, f"PYTHONUSERBASE='{room}' python3 {INSTALL.format(HERE)} {managed} {options.format(room)} 2>/dev/null")
    (command,) = room.rglob("bin/balisekit")
    (room / "link").symlink_to(command)
    for words in (command, room / "link"):
        said = sh(room, f"PYTHONPATH='{room}' PATH=/usr/bin:/bin '{words}' check '{TOP}/examples/links/line.csv'")
        assert said.endswith('\nprogram: "yes: groups 4, messages 0"\n') and not (room / "evil").exists()


def test_refused_rows(made, venv):
    """The wheel starts no process, because it has the library, and answers as the program of a clone."""
    user = made.with_name("a user of refused rows")
    user.mkdir()
    (user / "count.py").write_text(COUNT)
    sh(TOP, f"BALISECHECK='{program()}' python3 bench/table.py 1200 --refused 200 >'{user}/refused.csv'")
    check = "python3 count.py check refused.csv"
    count, said = sh(user, f"PATH='{venv}/bin':$PATH {check}").split("\n", 1)
    of_clone = sh(user, f"BALISECHECK='{program()}' PYTHONPATH='{TOP}/companion/src' {check}").split("\n", 1)
    assert said.endswith("INCOMPLETE: 200 of 1200 telegrams refused, 200 of 200 groups left out\n")
    assert without_opening(said) == without_opening(of_clone[1]) and int(of_clone[0]) > 200
    assert count == "0" or not (package_of(venv) / "libbalisecheck.so.0").exists()


def test_without_jinja2(made, venv):
    """A venv without other packages checks. What needs jinja2 names it."""
    user, settings = made.with_name("a user without jinja2"), venv / "pyvenv.cfg"
    user.mkdir()
    shown_before = text_of(settings)
    settings.write_text(shown_before.replace("include-system-site-packages = true", "include-system-site-packages = false"))
    try:
        shows(made / "README.md", user, venv / "bin")
        status, said = attempt(user, f"'{venv}/bin/balisekit' report line.csv --html report.html")
    finally:
        settings.write_text(shown_before)
    assert status == 3 and "jinja2" in said


def test_types(made, venv):
    """mypy reads the types of the installed wheel: it finds the wrong line of a user's script, and only that."""
    if not importlib.util.find_spec("mypy"):
        pytest.skip("types of the wheel (mypy)")
    user = made.with_name("a user with types")
    user.mkdir()
    (user / "script.py").write_text(SCRIPT)
    status, said = attempt(user, f"python3 -m mypy --strict --python-executable '{venv}/bin/python' script.py")
    assert (status, said.count("error:")) == (1, 1), said
    assert re.match(r"script\.py:5: error: Incompatible types in assignment \(.*variable has type .int.\)", said)


@pytest.mark.parametrize("judge, package", [("twine check --strict", "*.whl"), ("lintian --fail-on warning", "*.deb")])
def test_judged(judge, package, made):
    """Nothing is wrong with the packages by the tools that judge them."""
    tool = judge.split()[0]
    if not shutil.which(tool):
        pytest.skip(f"a judgement of packages ({tool})")
    said = re.sub(r"\x1b\[\d+m", "", sh(made, f"{judge} {package}"))
    assert re.fullmatch(r"((Checking \S+: PASSED\n)*|running with root privileges .*\n)?", said)


@pytest.fixture(scope="module", name="root")
def a_root(made):
    """A folder in which the .deb of both commands is unpacked."""
    sh(made, f"dpkg-deb -R balisecheck_*.deb '{made.with_name('a root')}'")
    return made.with_name("a root")


def test_deb(made, root):
    """The .deb is used. The recipe of the container fits what it has and recommends."""
    docs, recipe = root / "usr/share/doc/balisecheck", text_of(TOP / "examples/container/Containerfile")
    assert sh(root, "md5sum --quiet -c DEBIAN/md5sums && sh -n DEBIAN/postinst && sh -n DEBIAN/prerm") == ""
    assert all((docs / name).stat().st_size for name in ("copyright", "THIRD-PARTY.md"))
    shows(docs / "README.md", docs, root / "usr/bin")
    has_live_pages(root)
    links_pages_of_rules(made, root / "usr")
    serves(made, root / "usr")
    assert all((root / name).exists() for name in re.findall(r"COPY --from=kit /(usr/\S*)", recipe))
    assert f"\nCOPY balisecheck_{VERSION}_amd64.deb " in recipe.replace("*", VERSION)
    recommended = sh(made, "dpkg-deb -f balisecheck_*.deb Recommends")
    assert {*re.findall(r"[\w-]+", recommended)} <= {*re.findall(r"[\w-]+", recipe)}


@pytest.mark.parametrize("tool", ["jq", "parallel"])
def test_recipes_of_the_deb(tool, root, tmp_path):
    """Commands that its documents show need no clone, only a copy of the examples."""
    if not shutil.which(tool):
        pytest.skip(f"recipes of the .deb by {tool}")
    docs, installed = root / "usr/share/doc/balisecheck", f"set +e\nexport PATH='{root}/usr/bin':$PATH\nunset BALISECHECK\n"
    sources = ". examples/find-field.sh\n. examples/parallel.sh\n"
    sh(tmp_path, f"cp -r '{docs}/examples' .")
    for name, content in FILES.items():
        (tmp_path / name).write_bytes(content)
    tried = 0
    for page in [*docs.rglob("*.md"), *docs.rglob("*.sh")]:
        for commands, wanted in shown(page):
            # (the page of the library has other commands for the .deb)
            if commands and "crates/" not in commands and (tool == "parallel") == bool(re.search(r"check_\w+ |shared_|run_in_", commands)):
                assert attempt(tmp_path, f"{installed}{sources}{{ {commands}\n}} 2>/dev/null")[1] == wanted, page
                tried += 1
    assert tried > (20 if tool == "jq" else 1)


@pytest.fixture(scope="module", name="library", params=["packages", "prefix"])
def a_library(request, made):
    """The folder that has lib and include: /usr of the packages of the library, unpacked by themselves, or the prefix
    of install.sh. Beside it the folder of lib that the compiler searches."""
    if not has_library(made):
        pytest.skip("the library of a release (its program is not the stored one)")
    place = made.with_name(f"a library by {request.param}")
    if request.param == "prefix":
        sh(made.with_name("tree"), f"./install.sh '{place}'")
        return place, place / "lib"
    for package in made.glob("libbalisecheck*.deb"):
        sh(made, f"dpkg-deb -x '{package}' '{place}' && dpkg-deb -R '{package}' '{place}/{package.name}'")
        sh(place / package.name, "md5sum --quiet -c DEBIAN/md5sums")
    # (the place of a package is the root of a system, which this folder is not)
    sh(place, f"sed -i 's|^prefix=.*|prefix={place}/usr|' usr/lib/*/pkgconfig/balisecheck.pc")
    return place / "usr", place / "usr/lib/x86_64-linux-gnu"


EXAMPLE = "examples/library"


@pytest.mark.parametrize("compiler", ["gcc", "clang"])
def test_pkg_config(compiler, library, tmp_path):
    """An example is compiled by the words of pkg-config, without a warning, and finds the library when it starts."""
    if not shutil.which(compiler) or not shutil.which("pkg-config"):
        pytest.skip(f"the library by pkg-config ({compiler}, pkgconf)")
    path = f"PKG_CONFIG_PATH='{library[1]}/pkgconfig'"
    assert sh(tmp_path, f"{path} pkg-config --modversion balisecheck") == f"{VERSION}\n"
    words = sh(tmp_path, f"{path} pkg-config --cflags --libs balisecheck").strip()
    strict = "-std=c99 -Wall -Wextra -Wpedantic -Werror"
    sh(tmp_path, f"{compiler} {strict} -o telegrams '{TOP}/{EXAMPLE}/c/telegrams.c' {words}")
    assert "[libbalisecheck.so.0]" in sh(tmp_path, "readelf -d telegrams")
    said = sh(tmp_path, f"LD_LIBRARY_PATH='{library[1]}' ./telegrams <'{TOP}/examples/header-only.txt'")
    assert said == text_of(TOP / "examples/header-only.json")


@pytest.mark.parametrize("version, status", [(VERSION, 0), ("0.5", 0), ("99.0", 1)])
def test_cmake(version, status, library, tmp_path):
    """Both examples are built by find_package, which takes this version for older ones. The archive is enough."""
    if not shutil.which("cmake") or not shutil.which("c++"):
        pytest.skip("the library by CMake (cmake, g++)")
    sh(tmp_path, f"cp -r '{TOP}/{EXAMPLE}' it && sed -i 's/find_package(balisecheck/& {version}/' it/CMakeLists.txt")
    configure = f"cmake -DCMAKE_PREFIX_PATH='{library[0]}' -S it -B build"
    said, build = attempt(tmp_path, f"{configure} && cmake --build build"), tmp_path / "build"
    assert said[0] == status, said
    if status == 0:
        assert sh(build, f"./telegrams <'{TOP}/examples/header-only.txt'") == text_of(TOP / "examples/header-only.json")
        assert sh(build, f"./check <'{TOP}/examples/check/sound-line.json'") == "yes: groups 2, messages 2\n"
        assert "libbalisecheck" not in sh(build, "readelf -d check")


def test_python_and_java(library, tmp_path):
    """Examples find the library by the name that its packages give it."""
    search = f"LD_LIBRARY_PATH='{library[1]}'"
    said = sh(tmp_path, f"{search} python3 '{TOP}/{EXAMPLE}/python/telegrams.py' <'{TOP}/examples/header-only.txt'")
    assert said == text_of(TOP / "examples/header-only.json")
    jna = "/usr/share/java/jna.jar"
    if not shutil.which("java") or not os.path.exists(jna):
        pytest.skip("the library in Java (default-jdk-headless, libjna-java)")
    java = f"java -XX:TieredStopAtLevel=1 -cp {jna} '{TOP}/{EXAMPLE}/java/Check.java'"
    assert sh(tmp_path, f"{search} {java} <'{TOP}/examples/check/sound-line.json'") == "yes: groups 2, messages 2\n"


def test_documents_of_the_library(made, library):
    """The development package has the reference and the examples, whose pages have live links, and licences."""
    documents = library[0] / "share/doc/libbalisecheck-dev"
    if library[0].name != "usr":
        assert not documents.exists()
        return
    assert sh(documents, f"diff -r examples '{TOP}/{EXAMPLE}'") == "" and text_of(documents / "library.md")
    has_live_pages(library[0].parent)
    for name, paper in itertools.product(("libbalisecheck0", "libbalisecheck-dev"), ("copyright", "THIRD-PARTY.md")):
        assert (documents.with_name(name) / paper).stat().st_size
    assert sum_of(library[1] / "libbalisecheck.so.0") == sum_of(made.with_name("tree") / STORED / "libbalisecheck.so.0")


def test_python_of_the_deb(root, tmp_path):
    """The example of the Python module runs with the path that its page names, and after the hook of the examples."""
    docs, example = root / "usr/share/doc/balisecheck", "examples/python/check_line.py"
    path = re.search(r"after the \.deb `PYTHONPATH=(.*?)`", text_of(docs / "docs/api.md"))[1]
    sh(tmp_path, f"cp -r '{docs}/examples' .")
    said = sh(tmp_path, f"PATH='{root}/usr/bin':$PATH PYTHONPATH='{root}{path}' python3 {example}")
    assert said == sh(TOP, f"PYTHONPATH=companion/src python3 {example}")
    hook = f"PATH='{root}/usr/bin':$PATH examples/hooks/check-tables examples/links/line.csv"
    assert attempt(tmp_path, hook) == (0, sh(tmp_path, f"'{root}/usr/bin/balisekit' check ./examples/links/line.csv"))


def test_other_systems(made, tmp_path):
    """The archives have the files that ABOUT lists, with licences and header, and no other file."""
    if not has_others(made):
        pytest.skip("archives for other systems (scripts/targets, which needs the toolchain)")
    folders = {"aarch64-linux": f"balisecheck-{VERSION}-aarch64-linux-untested", "wasm64": "package",
               "x86_64-windows": f"balisecheck-{VERSION}-x86_64-windows-untested"}
    sh(made, f"for it in *.tgz *-aarch64-*.tar.gz; do tar -xzf $it -C '{tmp_path}'; done; "
             f"python3 -m zipfile -e *.zip '{tmp_path}'")
    listed = [line.split() for line in text_of(made.with_name("tree") / STORED / "ABOUT").splitlines() if "/" in line]
    for system, folder in folders.items():
        sums = {name.split("/")[1]: whole for name, whole in listed if name.startswith(system)}
        papers = {"ABOUT", "LICENSE-MIT", "LICENSE-APACHE", "THIRD-PARTY.md", "README.md"}
        more = {"aarch64-linux": {"balisecheck.h", "balisecheck.1"}, "wasm64": set()}.get(system, {"balisecheck.h"})
        assert {*os.listdir(tmp_path / folder)} == {*sums} | papers | more
        assert {name: sum_of(tmp_path / folder / name) for name in sums} == sums
    assert os.access(tmp_path / folders["aarch64-linux"] / "balisecheck", os.X_OK)
    if has_page(made):
        assert sum_of(made / f"balisecheck-{VERSION}-untested.html") == dict(listed)["browser/balisecheck.html"]


@pytest.fixture(scope="module", name="wheel_of_arm")
def a_wheel_of_arm(made):
    """The folder into which pip has put the wheel for aarch64, as on such a machine."""
    if not has_others(made):
        pytest.skip("the wheel for aarch64 (scripts/targets, which needs the toolchain)")
    folder, platform_ = made.with_name("a wheel of ARM"), "--platform manylinux_2_17_aarch64 --only-binary=:all:"
    sh(made, f"python3 {INSTALL.format(ARM)} {platform_} --target '{folder}'")
    return folder


def test_wheel_of_arm(made, wheel_of_arm):
    """It has the same modules as the other wheel, and the files for aarch64, which its ABOUT names. Here pip refuses it."""
    tree, package = made.with_name("tree"), wheel_of_arm / "balisekit"
    lines = [line.split(" ", 1) for line in text_of(tree / STORED / "ABOUT").splitlines()]
    whole, listed = dict(lines), dict(line.split(" ", 1) for line in text_of(package / "ABOUT").splitlines())
    files = {"program": wheel_of_arm / "bin/balisecheck", "library": package / "libbalisecheck.so.0"}
    for word, path in files.items():
        assert listed.pop(word) == sum_of(path) == whole[f"aarch64-linux/{path.name}"] != whole[word]
    assert listed.pop("glibc") == "2.17" and listed.pop("processor") == "aarch64"
    assert listed == {word: whole[word] for word in ("version", "commit", "kit", "sources")}
    differ = sh(tree, f"diff -r -x __pycache__ companion/src/balisekit '{package}' || true").splitlines()
    assert {*differ} == {f"Only in {package}: {it}" for it in ("ABOUT", "RELEASES", "libbalisecheck.so.0")}
    (metadata,) = map(text_of, wheel_of_arm.rglob("balisekit-*.dist-info/METADATA"))
    assert "for Linux on ARM with 64 bits (aarch64) with glibc 2.17 or later" in metadata and "@" not in metadata
    has_live_pages(wheel_of_arm)
    status, said = attempt(made, f"python3 {INSTALL.format(ARM)} --target '{made.with_name('no wheel')}'")
    assert status == 1 and "is not a supported wheel on this platform" in said


def test_wheel_of_arm_by_qemu(wheel_of_arm, tmp_path):
    """balisekit of the wheel answers as that of a clone, by its library and by its program."""
    if not ARM_ROOT:
        pytest.skip("balisekit on aarch64 (python3 for it in the root that BALISECHECK_ARM_ROOT names)")
    shutil.copytree(wheel_of_arm, tmp_path / "it")
    commands = tmp_path / "it/bin"
    qemu = f"#!/bin/sh\nexec qemu-aarch64 -L '{ARM_ROOT}' "
    write(commands / "python3", f"{qemu}'{ARM_ROOT}/usr/bin/python3' \"$@\"\n")
    write(tmp_path / "program", f"{qemu}'{commands}/balisecheck' \"$@\"\n")
    kit, named = f"'{commands}/balisekit' check", f"--program '{tmp_path}/program'"
    library = f"SHA-256 {sum_of(wheel_of_arm / 'balisekit/libbalisecheck.so.0')}: the library of this balisekit, by ABOUT"
    for name in ("links", "table", "meaning"):
        table = f"'{TOP}/examples/{name}/line.csv'"
        wanted = attempt(tmp_path, f"'{TOP}/balisekit' check {table}")
        for words, opening in (("", library), (named, "not a released program: it was named by --program")):
            status, said = attempt(tmp_path, f"{kit} {table} {words}")
            assert opening in said and (status, without_opening(said)) == (wanted[0], without_opening(wanted[1]))


def test_wheel_of_any_system(made, tmp_path):
    """It has the module in place of program and library, and answers by node."""
    if not has_others(made):
        pytest.skip("the wheel for any system (scripts/targets, which needs the toolchain)")
    sh(made, f"python3 {INSTALL.format(ANY)} --target '{tmp_path}/it'")
    package, stored = tmp_path / "it/balisekit", made.with_name("tree") / STORED / "ABOUT"
    about, whole = (dict(line.split(" ", 1) for line in text_of(it).splitlines()) for it in (package / "ABOUT", stored))
    assert about.pop("module") == sum_of(package / "balisecheck.mjs") == whole["wasm64/balisecheck.mjs"]
    assert about == {word: whole[word] for word in ("version", "commit", "kit", "sources")}
    assert os.listdir(tmp_path / "it/bin") == ["balisekit"] and not (package / "libbalisecheck.so.0").exists()
    targets.need("node")
    table, path = f"'{TOP}/examples/table/line.csv'", "PATH=/usr/bin:/bin"
    status, said = attempt(tmp_path, f"{path} it/bin/balisekit check {table}")
    wanted = attempt(tmp_path, f"'{TOP}/balisekit' check {table}")
    assert (status, without_opening(said)) == (wanted[0], without_opening(wanted[1]))
    assert f"balisecheck.mjs {VERSION}, SHA-256 {sum_of(package / 'balisecheck.mjs')}: the module of this balisekit" in said


def test_components(made):
    """The SPDX document has the checksums of the program of the release, and of its library for C, if it has one."""
    packages = {it["name"]: it for it in json.loads(text_of(next(made.glob("*.json"))))["packages"]}
    assert packages["balisekit"]["versionInfo"] == VERSION
    library = {it: f"{STORED}/{it}" for it in ("libbalisecheck.a", "libbalisecheck.so.0")}
    assert ("wasm64/balisecheck.mjs" in packages) == has_others(made)
    files = {"balisecheck": "balisecheck", **library}
    for name, path in files.items():
        file = made.with_name("tree") / path
        assert file.exists() == (name in packages)
        assert not file.exists() or packages[name]["checksums"][0]["checksumValue"] == sum_of(file)
