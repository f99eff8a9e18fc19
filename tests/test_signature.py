"""Signatures of scripts/release.sh, and what scripts/verify-release accepts and refuses, by throwaway keys. A tiny tree
makes the releases, and two are made of this one."""
import re
import shutil

import pytest

from runner import TOP, program
from test_release import NEEDS, TOOLS
from test_store import READELF
from tiny import attempt, made, sh, write

pytestmark = pytest.mark.skipif(not (shutil.which("git") and shutil.which("ssh-keygen")),
                                reason="signatures (git, openssh-client)")
FROM_HERE = ("scripts/verify-release", "dist/allowed_signers", "dist/pack/readme", "dist/pack/first-answer.md",
             "dist/pack/release.md", "dist/pack/targets.py", "LICENSE-APACHE", "LICENSE-MIT", "THIRD-PARTY.md",
             "docs/module.md", "docs/other-systems.md")
# What stands in for packages. The tarball is the real one.
STAND_INS = {**dict.fromkeys(("dist/pack/manual", "dist/pack/links", "scripts/install.sh"), "#!/bin/sh\n"),
             "dist/pack/spdx.py": "#!/bin/sh\necho '{}'\n", "README.md": "# A tool\n\n## Try it\n\nit\n",
             "dist/pack/wheel": '#!/bin/sh\necho a wheel >"$2/a.whl"\n',
             "dist/pack/deb": '#!/bin/sh\necho a package >"$2/a.deb"\n',
             "crates/balisecheck_c/include/balisecheck.h": "int it;\n"}
TRY = "BALISECHECK=$stored/balisecheck scripts/release.sh --try"
SIGN = "ssh-keygen -q -Y sign -n balisecheck-release -f ../key SHA256SUMS"
LIST = "find * -type f ! -name 'SHA256SUMS*' | sort | xargs sha256sum >SHA256SUMS; rm -f SHA256SUMS.sig"


@pytest.fixture(scope="module", name="kept")
def a_folder_with_releases(tmp_path_factory):
    """A tree with a stored program; two keys, and a list of the first; a signed release, an unsigned one, a tarball."""
    room = tmp_path_factory.mktemp("a room")
    write(room / "tools/readelf", READELF)
    write(room / "tools/rt", "#!/bin/sh\necho a kit\n")
    tree = made(room / "tree")
    for name, text in {**STAND_INS, **{name: (TOP / name).read_text("utf-8") for name in FROM_HERE}}.items():
        write(tree / name, text)
    sh(tree, "git init -q; save; built one; scripts/release.sh store; save")
    sh(room, "for it in key other; do ssh-keygen -q -t ed25519 -N '' -C a-test -f $it; done")
    line = f'balisecheck-release namespaces="balisecheck-release,git" {(room / "key.pub").read_text("utf-8")}'
    (room / "signers").write_text(f"# keys\n{line}", "utf-8")
    said = sh(tree, f"{TRY} ../signed --sign ../key; {TRY} ../unsigned")
    assert said == "written: ../signed\nrelease: unsigned, since there is no --sign KEY\nwritten: ../unsigned\n"
    sh(room, "mkdir unpacked; tar -xzf signed/*-x86_64-linux*.tar.gz -C unpacked --strip-components=1")
    return room


@pytest.fixture(name="room")
def a_copy(kept, tmp_path):
    """A copy of all this."""
    return shutil.copytree(kept, tmp_path / "a copy")


def verify(room, words="--key ../signers ../signed"):
    """Status and output of the script in the tree."""
    return attempt(room / "tree", f"scripts/verify-release {words}")


def test_same_bytes(room):
    """Two releases of one tree are equal, byte for byte, signed or not. They tell whether they are signed."""
    sh(room / "tree", f"{TRY} ../again --sign ../key; {TRY} ../without")
    assert sh(room, "diff -r signed again; diff -r unsigned without") == ""
    assert sh(room, "ls {signed,unsigned}/SHA*").split() == [
        "signed/SHA256SUMS", "signed/SHA256SUMS.sig", "unsigned/SHA256SUMS"]
    sh(room, "mkdir other_tree; tar -xzf unsigned/*-x86_64-linux*.tar.gz -C other_tree --strip-components=1")
    for folder, is_signed in (("signed", True), ("unpacked", True), ("unsigned", False), ("other_tree", False)):
        text = (room / folder / "README.md").read_text("utf-8")
        assert ("**This release is unsigned**" in text) is not is_signed, folder
        assert ("verify-release FOLDER" in text or "`./verify-release .` checks the signature" in text) is is_signed
        assert "SIGNED@" not in text


def test_verified(room):
    """A signed release and its tarball are verified from a clone. The tarball's own script adds a note."""
    status, said = verify(room)
    assert status == 0 and re.fullmatch(
        r'signature: Good "balisecheck-release" signature for balisecheck-release with ED25519 key SHA256:\S+\n'
        r"files: 10, as listed\nsources: \w{64}, those of \S.*\naarch64-linux: 3 files, those of ABOUT\n"
        r"browser: 1 file, the one of ABOUT\n"
        r"wasm64: 3 files, those of ABOUT\nx86_64-windows: 3 files, those of ABOUT\nverified: balisecheck 1\.2\.9\n", said)
    status, said = verify(room, "--key ../signers ../unpacked")
    assert status == 0 and "\nnote: " not in said and said.endswith("\nverified: balisecheck 1.2.9\n")
    status, said = attempt(room / "unpacked", "./verify-release --key ../signers .")
    assert status == 0 and "listed in " in said and "\nnote: script and keys are of the folder itself." in said


def test_unsigned(room):
    """What is unsigned is refused, unless only damage is looked for."""
    why = "it is unsigned: there is no SHA256SUMS.sig. With --unsigned only damage is noticed"
    assert verify(room, "--key ../signers ../unsigned") == (1, f"verify-release: refused: {why}\n")
    status, said = verify(room, "--unsigned ../unsigned")
    assert status == 0 and said.startswith("signature: not checked, so nothing shows who made this release\n")
    sh(room, "echo >>unsigned/a.deb")
    assert verify(room, "--unsigned ../unsigned")[0] == 1


def test_each_byte_counts(room):
    """A byte more, a byte less or another byte in any file of the release or of the unpacked tarball is refused."""
    for path in sorted(it for folder in ("signed", "unpacked") for it in (room / folder).rglob("*") if it.is_file()):
        data = path.read_bytes()
        at = len(data) // 2
        # (a signature can have more line ends)
        others = [] if path.suffix == ".sig" else [data + b"\n", data[:-1]]
        for other in (data[:at] + bytes([data[at] ^ 1]) + data[at + 1:], *others):
            path.write_bytes(other)
            status, said = verify(room, f"--key ../signers '../{path.relative_to(room).parts[0]}'")
            assert (status, said.count("verify-release: refused: ")) == (1, 1), (path.name, said)
        path.write_bytes(data)


NOT_SIGNED, NOT_LISTED = "SHA256SUMS is not what a key in ", "SHA256SUMS does not list "
CHANGED, NO_ABOUT = "the files are not those", "it has no ABOUT, or no tarball with one"
NO_LIST, NEITHER = "SHA256SUMS is not the list of a release: line ", " is neither a file nor a folder"


@pytest.mark.parametrize("command, status, why", [
    ("ssh-keygen -q -Y sign -n balisecheck-release -f ../other SHA256SUMS <<<y", 1, NOT_SIGNED),
    ("ssh-keygen -q -Y sign -n git -f ../key SHA256SUMS <<<y", 1, NOT_SIGNED),
    (f"echo >>a.deb; {LIST}; ssh-keygen -q -Y sign -n balisecheck-release -f ../other SHA256SUMS", 1, NOT_SIGNED),
    (f"cp SHA256SUMS.sig ..; echo >>a.deb; {LIST}; mv ../SHA256SUMS.sig .", 1, NOT_SIGNED),
    *((f"{command} SHA256SUMS.sig", 1, NOT_SIGNED) for command in (": >", "echo >", "cp a.deb", "seq 9999 >")),
    ("rm SHA256SUMS.sig", 1, "it is unsigned"),
    ("rm SHA256SUMS", 2, "../signed has no SHA256SUMS, so it is not a release"),
    ("rm a.deb", 1, f"{CHANGED} of SHA256SUMS: sha256sum: a.deb: No such file"),
    ("rm a.deb; mkdir a.deb", 1, CHANGED), ("chmod 0 a.deb", 1, CHANGED),
    ("touch more", 1, f"{NOT_LISTED}./more"), ("mkdir it; touch it/a.deb", 1, f"{NOT_LISTED}./it/a.deb"),
    (r"touch $'a\na.deb'", 1, NOT_LISTED), (r"touch $'\e[31mred'", 1, f"{NOT_LISTED}./?[31mred"),
    ("touch -- -a", 1, f"{NOT_LISTED}./-a"), ("touch .a", 1, f"{NOT_LISTED}./.a"),
    ("mv a.deb ..; ln -s ../a.deb .", 1, f"./a.deb{NEITHER}"), ("rm a.deb; mkfifo a.deb", 1, f"./a.deb{NEITHER}"),
    *((f"printf '%064d  %s\\n' 0 '{name}' >SHA256SUMS; rm *.sig; {SIGN}", 1, NO_LIST)
      for name in ("../signed/a", "/etc/passwd", "-", "-a", "a/../a", "a/./b", "..", "a/.", "", "a b", "a\\b", "ä")),
    *((f"sed -i '{edit}' SHA256SUMS; rm *.sig; {SIGN}", 1, NO_LIST)
      for edit in (r"s/^/\\/", "y/abcdef/ABCDEF/", r"s/$/\r/")),
    (f"printf '\\0' >>SHA256SUMS; rm *.sig; {SIGN}", 1, NO_LIST),
    (f": >SHA256SUMS; rm *.sig; {SIGN}", 1, NO_LIST), (f"rm *; : >SHA256SUMS; {SIGN}", 1, NO_LIST),
    (f"rm *; echo it >a; {LIST}; {SIGN}", 1, NO_ABOUT),
    (f"rm *-x86_64-linux*.tar.gz; {LIST}; {SIGN}", 1, NO_ABOUT),
    (f"cp *-x86_64-linux*.tar.gz balisecheck-2-x86_64-linux.tar.gz; {LIST}; {SIGN}", 1, NO_ABOUT),
    (f"echo >$(echo *-x86_64-linux*.tar.gz); {LIST}; {SIGN}", 1, NO_ABOUT)])
def test_refused(room, command, status, why):
    """After the command in the folder of the release it is refused, or cannot be checked."""
    sh(room / "signed", command)
    found, said = verify(room)
    lead = {1: "refused", 2: "not checked"}[status]
    if "chmod" not in command or found:  # (root reads it all the same)
        assert found == status and f"verify-release: {lead}: {why}" in said, said
    assert not re.search(r"[^ -~\n]", said)


NOT_OURS = "its ABOUT names a version and sources that are neither those of "


@pytest.mark.parametrize("command, why", [
    *((it, "its program is not the one that ABOUT names") for it in (
        "sed -i s/^program/no/ $about", "sed -i /^program/d $about", "echo >>balisecheck", "rm balisecheck")),
    *((f"sed -i '{edit}' $about", NOT_OURS) for edit in (
        "s/^sources .*/sources 0/", "s/^sources .*/sources [^ ]*/", "s/^version .*/version 9.9.9/", "/^version/d",
        "/^sources/d", "/^program/!d"))])
def test_other_sources(room, command, why):
    """Program and sources have to be those of ABOUT, even if the right key has signed it, for each of the scripts."""
    sh(room / "unpacked", f"about=dist/x86_64-linux/ABOUT; {command}; {LIST}; {SIGN}")
    for folder, script in (("tree", "scripts/verify-release"), ("unpacked", "./verify-release")):
        status, said = attempt(room / folder, f"{script} --key ../signers ../unpacked")
        assert status == 1 and f"verify-release: refused: {why}" in said, said


@pytest.mark.parametrize("archive, name", [
    ("*-aarch64-linux*.tar.gz", "balisecheck"), ("*-x86_64-windows*.zip", "balisecheck.dll"), ("*.tgz", "balisecheck.d.mts"),
    ("*.html", "balisecheck.html")])
def test_other_systems(room, archive, name):
    """Each archive for another system has the files that ABOUT lists, even if the right key has signed other ones."""
    sh(room / "tree", "targets other; { sed '/[/]/d' $stored/ABOUT; sed 1d out/TARGETS; } >new; mv new $stored/ABOUT")
    sh(room / "tree", f"{TRY} ../changed; cd ../signed; cp ../changed/{archive} .; {LIST}; {SIGN}")
    status, said = verify(room)
    assert status == 1 and re.search(rf"refused: {re.escape(name)} in balisecheck-\S+ is not the one that ABOUT names", said)
    sh(room / "signed", f"rm {archive}; {LIST}; {SIGN}")
    assert verify(room)[0] == 0


@pytest.mark.parametrize("word", ["version", "sources", "program"])
def test_a_line_of_about_twice(room, word):
    """A second line could hide that no list has the program: one of a released version is enough for `grep`."""
    sh(room / "unpacked", f"""about=dist/x86_64-linux/ABOUT
        if [ {word} = version ]; then
            listed=$(grep -v '^#' ../tree/dist/RELEASES | tail -n 1 | cut -d ' ' -f 1,3,4)
            echo evil >balisecheck
            printf 'version %s\\nversion evil\\nsources 0\\nprogram %s\\n' "$listed" "$(sha256sum <balisecheck | cut -c -64)"
        else
            sed '/^{word}/p' $about
        fi >new; mv new $about; {LIST}; {SIGN}""")
    for words in ("--key ../signers ../unpacked", "--unsigned ../unpacked"):
        status, said = verify(room, words)
        assert status == 1 and f"verify-release: refused: its ABOUT has several lines {word}\n" in said, said


def test_other_clone(room):
    """The sources are those of the clone, or listed there, or, if the release is signed, listed in the release."""
    tree = room / "tree"
    sh(tree, "echo // >>crates/etcs_low/src/lib.rt")
    assert " listed in " in verify(room)[1] and verify(room, "--unsigned ../unsigned")[0] == 0
    sh(tree, "sed -i '/ [-0-9]*$/d' dist/RELEASES")
    for folder in ("signed", "unpacked"):
        status, said = verify(room, f"--key ../signers ../{folder}")
        assert status == 0 and " listed only in its own dist/RELEASES" in said
    status, said = verify(room, "--unsigned ../unsigned")
    assert status == 1 and "refused: its ABOUT names a version and sources that are neither" in said


@pytest.mark.parametrize("words, why", [
    *((it, "usage: ") for it in ("", "--unsigned", "--key", "-x", "--help", "../signed ../signed", "--key ../signers",
                                 "--unsigned -k ../signed", "--force ../signed")),
    ("--key ../none ../signed", "there is no file ../none"), ("../none", "there is no folder ../none"),
    ("'../no\\nne'", "there is no folder "), ("''", " has no SHA256SUMS"), ("--unsigned ..", ".. has no SHA256SUMS"),
    ("--unsigned -", "there is no folder -"),
    *((f"{it}../signed", "no release key is known: there is none in ") for it in ("", "--key /dev/null "))])
def test_not_checked(room, words, why):
    """Wrong words, and what is not there, are no refusal of a release. No key of a release has been published."""
    status, said = verify(room, words)
    assert status == 2 and said.startswith("verify-release: not checked: ") and why in said, said


def test_tools(room):
    """Without a tool, or with an OpenSSH that knows no signatures, nothing is checked."""
    write(room / "tools/ssh-keygen", "#!/bin/sh\necho 'unknown option -- Y'\nexit 1\n")
    status, said = verify(room)
    assert status == 2 and "ssh-keygen cannot check signatures, which OpenSSH 8.1 or later can: unknown option" in said
    few = "sh dirname readlink tr sha256sum awk find tar gzip"
    sh(room, f"mkdir few; for it in {few}; do ln -s $(command -v $it) few; done")
    for name, words in (("ssh-keygen", "--key ../signers ../signed"), ("awk", "--unsigned ../signed")):
        sh(room, f"rm -f few/{name}")
        status, said = attempt(room / "tree", f"PATH=../few scripts/verify-release {words}")
        assert (status, said) == (2, f"verify-release: not checked: the command {name} is missing\n")


@pytest.mark.parametrize("shell", ["dash", "bash --posix"])
def test_shells(room, shell):
    """The script is for any POSIX shell, and works from any folder, through a link and with a relative path."""
    if not shutil.which(shell.split()[0]):
        pytest.skip(f"a script by {shell} ({shell.split()[0]})")
    tree = room / "tree"
    assert attempt(tree, f"{shell} scripts/verify-release --key ../signers ../signed")[0] == 0
    sh(room, "ln -s tree/scripts/verify-release it")
    assert attempt(room / "signed", "CDPATH=/tmp:.. ../it --key ../signers .")[0] == 0


def test_style():
    """shellcheck has nothing to say about the script."""
    if not shutil.which("shellcheck"):
        pytest.skip("the script that verifies releases (shellcheck)")
    assert sh(TOP, "shellcheck scripts/verify-release") == ""


def test_keys(room):
    """Only ed25519 keys sign. Nothing is written before a key is known to be one, and only a release is signed."""
    sh(room, "ssh-keygen -q -t ecdsa -N '' -f ecdsa")
    wrong = [("--try ../it --sign ../ecdsa", "../ecdsa is no ed25519 key"), ("--sign none", "none is no ed25519 key")]
    uses = "raise --sign ../key", "--try ../it --sign", "--sign", "--try ../it ../key"
    for words, why in (*wrong, *((it, "usage: ") for it in uses)):
        status, said = attempt(room / "tree", f"scripts/release.sh {words}")
        assert status == 1 and said.startswith(f"release: {why}")
    assert not (room / "it").exists() and not (room / "tree/out/release").exists()


def test_release(room):
    """A release is written only if its key is published in dist/allowed_signers. Its tag can be verified too."""
    tree = room / "tree"
    sh(tree, r"""
        printf '%s\n' "== sources $(dist/sources)" "10 passed, 0 failed" >out/gate.log
        printf '%s\n' "== crates $(git rev-parse HEAD:crates)" "the edits: 9 passed, 0 failed" >out/edits.log
        echo "9 passed, 0 failed" >out/plants.log""")
    status, said = attempt(tree, "scripts/release.sh --sign ../key")
    assert status == 1 and "release: not written, since the signature was not verified" in said
    assert "no release key is known" in said and not (tree / "out/release").exists()
    sh(tree, "cp ../signers dist/allowed_signers; save")
    status, said = attempt(tree, "scripts/release.sh --sign ../other")
    assert status == 1 and NOT_SIGNED in said and not (tree / "out/release").exists()
    assert "verified: balisecheck 1.2.9\nwritten: out/release\n" in sh(tree, "scripts/release.sh --sign ../key")
    assert sh(tree, "scripts/verify-release out/release").endswith("verified: balisecheck 1.2.9\n")
    assert sh(tree, "ls out/release | grep -c log") == "3\n"
    tag = re.search(r"(?m)^# +\d\. (git .* tag .*)$", (TOP / "scripts/release.sh").read_text("utf-8"))[1]
    sh(tree, tag.replace("KEY", "../key"))
    allowed = "git -c gpg.format=ssh -c gpg.ssh.allowedSignersFile=dist/allowed_signers verify-tag v0.6.0"
    assert 'Good "git" signature for balisecheck-release' in sh(tree, f"{allowed} 2>&1")
    said = sh(tree, "scripts/release.sh")
    assert said.endswith("release: unsigned, since there is no --sign KEY\nwritten: out/release\n")


def test_published():
    """No key is published, and the pages say so; they must change with the first key."""
    keys = [line for line in (TOP / "dist/allowed_signers").read_text("utf-8").splitlines() if not line.startswith("#")]
    pages = [(TOP / name).read_text("utf-8") for name in ("SECURITY.md", "dist/allowed_signers")]
    assert [bool(keys)] * 2 == ["No release key has been published" not in page for page in pages]


@pytest.mark.slow
@pytest.mark.xdist_group("release")
def test_this_tree(kept, tmp_path):
    """Two signed releases of this tree are equal, and are verified by this tree and by the script in their tarball."""
    lacking = [NEEDS[it] for it in ("help2man", "dpkg-deb") if it in NEEDS and not shutil.which(it)]
    if lacking or not (TOP / ".git").exists():
        pytest.skip(f"a signed release ({', '.join(lacking) or 'git'})")
    for name, text in TOOLS.items():
        write(tmp_path / "tools" / name, f"#!/bin/sh\n{text}")
    command = f"PATH='{tmp_path}/tools:/usr/bin:/bin' BALISECHECK='{program()}' scripts/release.sh --try '{tmp_path}"
    sh(TOP, f"{command}/one' --sign '{kept}/key' & {command}/two' --sign '{kept}/key'; wait")
    assert sh(tmp_path, "diff -r one two; mkdir tree; tar -xzf one/*-x86_64-linux*.tar.gz -C tree --strip-components=1") == ""
    for folder in ("one", "tree"):
        said = sh(TOP, f"scripts/verify-release --key '{kept}/signers' '{tmp_path}/{folder}'")
        assert " those of " in said and "\nverified: balisecheck " in said
    status, said = attempt(tmp_path / "tree", f"./verify-release --key '{kept}/signers' ../one")
    # A program that is not stored yet is in no dist/RELEASES.
    sums = sh(TOP, "dist/sources").strip(), sh(TOP, f"sha256sum '{program()}'").split()[0]
    is_stored = " ".join(sums) in (TOP / "dist/RELEASES").read_text("utf-8")
    assert (status == 0, "listed in " in said) == (is_stored, is_stored), said
