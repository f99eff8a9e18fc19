#!/usr/bin/env bash
# Makes a release of the program that was proved and built here.
#
#     scripts/release.sh raise        writes the next version number into VERSION and each other file that has it
#     scripts/release.sh store        stores the program, that for tables, the library for C and their ABOUT in
#                                     dist/x86_64-linux, and adds a line to dist/RELEASES
#     scripts/release.sh              writes the release into out/release: tarball and its checksum, wheel, packages of
#                                     Debian, SPDX, the logs of the gate, of edits and plants, a README and SHA256SUMS
#     scripts/release.sh --try DIR    the same into an empty DIR, with the program that ./balisecheck would run, without
#                                     logs: the names of its packages have "untested"
#
# With `--sign KEY` at the end both SHA256SUMS, that of the release and that in the tarball, get a signature by this
# ed25519 key of ssh-keygen(1). Without it the release says that it is unsigned.
#
# The steps of a release, for version 0.6.0 as an example:
#
#     1. The program is stored and committed, and gate, edits and plants have passed (CONTRIBUTING.md).
#     2. The public key is committed in dist/allowed_signers, unless it is there.
#     3. scripts/release.sh --sign KEY
#     4. git -c gpg.format=ssh -c user.signingKey=KEY tag -s -m 'Balisecheck 0.6.0' v0.6.0
#     5. All of out/release is handed out, and the tag with the clone.
#
# `store` takes what the gate, or scripts/build, scripts/library and scripts/targets, have built from these sources in out/,
# and runs tests/dist. A program that differs from the stored one needs a new version number. Of the files for other
# systems only the checksums are stored, and a release takes these files from out/. It also needs the output of
# `.ci/run` in out/gate.log, of `tests/edits --all` in out/edits.log and of `tests/plants` in out/plants.log. Two runs on
# one commit with the same tools, and the same key, give the same bytes. Debian 12 and 13 give the same tarball, .deb and
# SPDX, but their wheels name different versions of hatchling. They need git, python3-hatchling, help2man, dpkg-deb, and
# ssh-keygen to sign.
set -euo pipefail
unset CDPATH

cd "$(dirname "${BASH_SOURCE[0]}")/.."
room=$(mktemp -d)
trap 'rm -rf "$room"' EXIT
dist=dist/x86_64-linux
version=$(cat VERSION)
# The key of --sign.
key=
# It has texts of docs/, which change more often than the program. So the gate and a trial take the page that was built, and
# only a release needs the one that ABOUT lists.
page=browser/balisecheck.html
# What is handed out beside the program. The tarball has files of scripts/ and man/ at its top.
handed=(man/balisecheck.1 man/balisecheck_table.1 balisekit scripts/install.sh scripts/verify-release README.md CHANGELOG.md ERRATA.md
    LICENSE-APACHE LICENSE-MIT SECURITY.md THIRD-PARTY.md companion dist/RELEASES dist/allowed_signers docs schemas
    examples)
# What is handed out with the library for C: its header, and how pkg-config and CMake find it.
with_library=(crates/balisecheck_c/include native/*.pc native/*.cmake)
# Where the number of the program stands.
numbered=(VERSION man/balisecheck.1 man/balisecheck_table.1 crates/balisecheck/src/help.rt crates/balisecheck_table/src/help.rt
    companion/src/balisekit/__init__.py examples/ci/*.yml)

fail() {
    echo "release: $1" >&2
    exit 1
}

# is_committed PATH..: fails if one of them is not as it is committed.
is_committed() {
    local changed
    changed=$(git status --porcelain -- "$@")
    [ -z "$changed" ] || fail "not committed: $(head -n 3 <<<"$changed")"
}

# sum_of FILE
sum_of() {
    sha256sum <"$1" | cut -d ' ' -f 1
}

# is_right FOLDER REMEDY: fails if the program in the folder is damaged or, by ABOUT, was built from other sources.
is_right() {
    grep -qsx "sources $(dist/sources)" "$1/ABOUT" || fail "the program in $1 was built from other sources: $2"
    grep -qx "program $(sum_of "$1/balisecheck")" "$1/ABOUT" || fail "the program in $1 is damaged: $2"
}

# has_table: fails if the program for tables in out/ is damaged or missing.
has_table() {
    grep -qsx "balisecheck_table $(sum_of out/balisecheck_table 2>/dev/null)" out/ABOUT ||
        fail 'the program for tables in out is damaged or missing: scripts/build'
}

# has_library: fails if the library in out/ is damaged or, by LIBRARY, was built from other sources.
has_library() {
    grep -qsx "sources $(dist/sources)" out/LIBRARY && grep -qx "archive $(sum_of out/libbalisecheck.a)" out/LIBRARY &&
        grep -qx "library $(sum_of out/libbalisecheck.so.0)" out/LIBRARY ||
        fail 'the library in out is damaged, missing or of other sources: scripts/library'
}

# targets_of PAPERS: the files for other systems that these papers list, each with its checksum.
targets_of() {
    grep '^[^ ]*/' "$1" 2>/dev/null
}

# are_targets PAPERS: whether out/targets has the files for other systems that these papers list, and they list some.
are_targets() {
    targets_of "$1" >"$room/targets" &&
        sed 's/\(.*\) \(.*\)/\2  \1/' "$room/targets" | (cd out/targets && sha256sum --quiet -c -) >/dev/null 2>&1
}

# is_passed LOG COMMAND: fails if there is no log, or its last line does not report that everything passed.
is_passed() {
    tail -n 1 "$1" 2>/dev/null | grep -qE '(^|[ :])[1-9][0-9]* passed, 0 failed$' || fail "no $1 in which everything passed: $2 | tee $1"
}

# The least C library that has all that a program calls.
glibc_of() {
    grep -aoE 'GLIBC_[0-9]+\.[0-9]+(\.[0-9]+)?' "$1" | cut -d _ -f 2 | sort -uV | tail -n 1
}

# takes_key FILE: fails if it is no key, or of another kind: others do not give the same signature in each run.
takes_key() {
    key=$1
    command -v ssh-keygen >/dev/null || fail 'to sign needs ssh-keygen'
    ssh-keygen -l -f "$key" 2>&1 | grep -q ' (ED25519)$' || fail "$key is no ed25519 key: ssh-keygen -t ed25519 makes one"
}

# sign FOLDER: signs its checksums, if there is a key.
sign() {
    [ -z "$key" ] || ssh-keygen -q -Y sign -f "$key" -n balisecheck-release "$1/SHA256SUMS" || fail "$key does not sign"
}

# papers PROGRAM: its papers, as a program of these sources.
papers() {
    printf '%s\n' "version $version" "commit $(git log -n 1 --format=%H -- crates.txt HANDLES crates)" \
        "kit $(rt version 2>/dev/null || echo unknown)" "glibc $(glibc_of "$1")" "sources $(dist/sources)" "program $(sum_of "$1")"
}

# said WORD FOLDER: what the papers in the folder say.
said() {
    sed -n "s,^$1 ,,p" "$2/ABOUT"
}

# raise: writes the next number, and a heading for it above what is not released yet.
raise() {
    local next=${version%.*}.$((${version##*.} + 1))
    sed -i "s/\<${version//./\\.}\>/$next/" "${numbered[@]}"
    sed -i "s/^## Unreleased\$/&\n\n## $next - $(date -u +%F)/" CHANGELOG.md
    echo "raised: $next. Commit, scripts/build, scripts/library, and scripts/release.sh store" >&2
}

# has_a_number: fails if another program has the number of the one in out/, and raises the number then.
has_a_number() {
    local other
    other=$(awk -v version="$version" -v program="$(sum_of out/balisecheck)" \
        'NF == 5 && $1 == version && $4 != program' dist/RELEASES)
    [ -z "$other" ] && return
    raise
    fail "$version is the number of another program (dist/RELEASES), and the new program has it built in"
}

store() {
    local line other sum before=$room/before
    is_committed crates.txt HANDLES crates
    is_right out 'scripts/build'
    has_table
    has_library
    grep -qsx "sources $(dist/sources)" out/TARGETS && are_targets out/TARGETS ||
        fail 'the files for other systems in out are damaged, missing or of other sources: scripts/targets'
    has_a_number
    mkdir -p "$dist"
    cp -a dist "$before"
    install -m 755 out/balisecheck out/balisecheck_table "$dist"
    rm -f "$dist"/libbalisecheck.*
    install -m 644 out/libbalisecheck.a out/libbalisecheck.so.0 "$dist"
    { papers out/balisecheck; grep '^balisecheck_table ' out/ABOUT; sed 1d out/LIBRARY; sed 1d out/TARGETS; } >"$dist/ABOUT"
    line="$version $(said commit "$dist") $(said sources "$dist")"
    grep -q "^$line $(said program "$dist") " dist/RELEASES || echo "$line $(said program "$dist") $(date -u +%F)" >>dist/RELEASES
    for other in aarch64-linux/balisecheck browser/balisecheck.html x86_64-windows/balisecheck.exe; do
        sum=$(said "$other" "$dist")
        grep -q "^$line $sum .* $other\$" dist/RELEASES || echo "$line $sum $(date -u +%F) $other" >>dist/RELEASES
    done
    if ! BALISECHECK=$PWD/out/balisecheck tests/dist; then
        rm -rf "$dist"
        cp -a "$before/." dist
        fail 'not stored, since tests/dist failed'
    fi
    echo "stored: commit dist" >&2
}

# tree TO PROGRAM PAPERS: writes what the tarball holds, of which the other files of a release are made.
tree() {
    mkdir -p "$1/$dist"
    git ls-files -z -- "${handed[@]}" | tar -c --null --files-from=- --transform='s,^\(scripts\|man\)/,,' | tar -x -C "$1"
    install -m 755 "$2" "$1/balisecheck"
    install -m 644 "$3" "$1/$dist/ABOUT"
    ! grep -q '^balisecheck_table ' "$3" || install -m 755 "$dist/balisecheck_table" "$1"
    # The library for C, and what is installed with it, have the places that they have in the repository.
    if grep -q '^library ' "$3"; then
        install -m 644 "$dist"/libbalisecheck.* "$1/$dist"
        git ls-files -z -- "${with_library[@]}" | tar -c --null --files-from=- | tar -x -C "$1"
    fi
    dist/pack/readme "$1" "$key"
    dist/pack/manual "$1"
    dist/pack/links "$1"
    (cd "$1" && find . -type f ! -name SHA256SUMS -printf '%P\0' | LC_ALL=C sort -z | xargs -0 sha256sum >SHA256SUMS)
    sign "$1"
}

# pack TO PROGRAM PAPERS MARK: writes tarball, wheel, packages of Debian, SPDX and the archives for other systems that the
# papers list, of the files as they stand here, with the mark in their names.
pack() {
    local name=balisecheck-$version-x86_64-linux$4 others answered
    SOURCE_DATE_EPOCH=$(git log -n 1 --format=%ct)
    export SOURCE_DATE_EPOCH LC_ALL=C TZ=UTC
    umask 022
    mkdir -p "$1"
    [ -z "$(ls -A "$1")" ] || fail "$1 is not empty"
    tree "$room/$name" "$2" "$3"
    tar -c -C "$room" --sort=name --mtime="@$SOURCE_DATE_EPOCH" --owner=0 --group=0 --numeric-owner --mode=u=rwX,go=rX \
        --format=gnu "$name" | gzip -9n >"$1/$name.tar.gz"
    (cd "$1" && sha256sum "$name.tar.gz" >"$name.tar.gz.sha256")
    dist/pack/wheel "$room/$name" "$1" "$4"
    dist/pack/deb "$room/$name" "$1" "$4"
    if targets_of "$3" >/dev/null; then
        dist/pack/targets.py "$room/$name" out/targets "$1" "$4"
        dist/pack/wheel "$room/$name" "$1" "$4" out/targets/aarch64-linux
        dist/pack/wheel "$room/$name" "$1" "$4" out/targets/wasm64
    fi
    dist/pack/spdx.py "$room/$name" >"$1/balisecheck-$version$4.spdx.json"
    targets_of "$3" >/dev/null && others=s/^@TARGETS@// || others=/^@TARGETS@/d
    answered="balisecheck $version, SHA-256 $(said program "$room/$name/$dist"): the program"
    [ ! -e "$room/$name/$dist/libbalisecheck.so.0" ] ||
        answered="libbalisecheck $version, SHA-256 $(said library "$room/$name/$dist"): the library"
    sed "$others; ${4:+s/^@UNTESTED@//}; /^@UNTESTED@/d; ${key:+s/^@SIGNED@//; /^@UNSIGNED@/d}; /^@SIGNED@/d; s/^@UNSIGNED@//
        s/@VERSION@/$version/g; s/@MARK@/$4/g; s/@BUILD@/${4:+-0untested}/g
        s/@ANSWERED@/$answered/" dist/pack/release.md >"$1/README.md"
}

# sums DIR: checksums of all files there, and their signature.
sums() {
    (cd "$1" && sha256sum -- * >"$room/sums" && mv "$room/sums" SHA256SUMS)
    sign "$1"
    [ -n "$key" ] || echo 'release: unsigned, since there is no --sign KEY' >&2
}

release() {
    is_committed "${handed[@]}" native VERSION dist crates.txt HANDLES crates
    is_right "$dist" 'scripts/release.sh store'
    [ "$(said version "$dist")" = "$version" ] || fail "the stored program is not $version: scripts/release.sh store"
    are_targets "$dist/ABOUT" || fail "out/targets has not the files for other systems that ABOUT lists: scripts/targets, and scripts/release.sh store if a text of the page has changed"
    is_passed out/gate.log .ci/run
    grep -qx "== sources $(said sources "$dist")" out/gate.log || fail 'out/gate.log is from other sources: .ci/run | tee out/gate.log'
    is_passed out/edits.log 'tests/edits --all'
    grep -qx "== crates $(git rev-parse HEAD:crates)" out/edits.log ||
        fail 'out/edits.log is from other sources: tests/edits --all | tee out/edits.log'
    is_passed out/plants.log tests/plants
    rm -rf out/release
    pack out/release "$dist/balisecheck" "$dist/ABOUT" ''
    cp out/gate.log out/edits.log out/plants.log out/release
    sums out/release
    if [ -n "$key" ] && ! scripts/verify-release out/release >&2; then
        rm -r out/release
        fail 'not written, since the signature was not verified'
    fi
    echo 'written: out/release' >&2
}

# try DIR: of the files as they are here, committed or not.
try() {
    local program built=none
    program=${BALISECHECK:-$(BALISECHECK_PATH=1 ./balisecheck)}
    papers "$program" >"$room/ABOUT"
    if cmp -s "$program" "$dist/balisecheck"; then
        sed -i "s/^kit .*/kit $(said kit "$dist")/" "$room/ABOUT"
        sed -n '/^balisecheck_table \|^archive \|^library /p' "$dist/ABOUT" >>"$room/ABOUT"
        [ ! -e "out/targets/$page" ] || built=$(sum_of "out/targets/$page")
        sed "s,^\($page\) .*,\1 $built," "$dist/ABOUT" >"$room/listed"
        ! are_targets "$room/listed" || targets_of "$room/listed" >>"$room/ABOUT"
    fi
    pack "$1" "$program" "$room/ABOUT" -untested
    sums "$1"
    echo "written: $1" >&2
}

case "$#:${1:-}:${3:-}" in
1:raise:) raise ;;
1:store:) store ;;
0::) release ;;
2:--sign:)
    takes_key "$2"
    release
    ;;
2:--try:) try "$2" ;;
4:--try:--sign)
    takes_key "$4"
    try "$2"
    ;;
*) fail 'usage: scripts/release.sh raise | store | [--try DIR] [--sign KEY]' ;;
esac
