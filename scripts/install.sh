#!/bin/sh
# Installs both commands with their manual pages into PREFIX, by default /usr/local:   install.sh [PREFIX]
#
# PREFIX/bin/balisecheck and PREFIX/bin/balisecheck_table are files that need only the C library. In a clone it is the program that ./balisecheck would
# run. PREFIX/bin/balisekit needs python3; its files are in PREFIX/share/balisecheck. The library for C that was stored with
# the program is in PREFIX/lib, with its files for pkg-config and CMake, and its header in PREFIX/include.
set -eu
unset CDPATH

top=$(dirname "$(readlink -f -- "$0")")
prefix=${1:-/usr/local}
kit=$prefix/share/balisecheck
library=$prefix/lib
manual=$prefix/share/man/man1
# A release has this script, the programs and the manual pages at its top. A clone has the script in scripts/.
program=$top/balisecheck
about=$top/dist/x86_64-linux/ABOUT
pages=$top
if [ ! -e "$program" ]; then
    top=${top%/*}
    program=$(BALISECHECK_PATH=1 "$top/balisecheck")
    about=${program%/*}/ABOUT
    pages=$top/man
fi

# where FILE: the file with the place and the version of the library.
where() {
    root=$(cd "$prefix" && pwd | sed 's/[&|\\]/\\&/g')
    sed "s|@PREFIX@|$root|; s/@VERSION@/$(sed -n 's/^version //p' "$about")/" "$1"
}

# (the start script of a clone has tried its program)
if ! met=$("$program" decode </dev/null 2>&1); then
    needs=$(sed -n 's/^glibc \(.*\)/it needs x86-64-v2 and glibc \1 or later, and /p' "$about")
    here="$(uname -m) with $(getconf GNU_LIBC_VERSION 2>/dev/null || echo 'another C library')"
    echo "install: not installed, because balisecheck does not start here: ${needs}this is $here: $(echo "$met" | head -n 1)" >&2
    exit 3
fi

for folder in "$prefix/bin" "$kit" "$library/pkgconfig" "$library/cmake/balisecheck" "$prefix/include" "$manual"; do
    lack=$(mkdir -p "$folder" 2>&1) && [ -w "$folder" ] && continue
    echo "install: not installed, because $folder cannot be written${lack:+ ($lack)}." >&2
    echo "install: to install only for yourself: $0 ~/.local" >&2
    exit 1
done
# Not `cp`, which would write through a link, or into a program that runs.
install -m 755 "$program" "$prefix/bin/balisecheck"
table=${program%/*}/balisecheck_table
[ ! -e "$table" ] || install -m 755 "$table" "$prefix/bin/balisecheck_table"
rm -rf "$kit/companion"
mkdir -p "$kit/companion/src" "$kit/dist/x86_64-linux"
install -m 755 "$top/balisekit" "$kit/balisekit"
install -m 644 "$top/companion/start.py" "$top/companion/pyproject.toml" "$kit/companion"
cp -r "$top/companion/src/balisekit" "$kit/companion/src"
find "$kit" -name __pycache__ -prune -exec rm -r {} +
install -m 644 "$about" "$kit/dist/x86_64-linux/ABOUT"
install -m 644 "$top/dist/RELEASES" "$kit/dist/RELEASES"
# (earlier versions had the library in a folder of its own)
rm -rf "$library/balisecheck" "$kit"/dist/x86_64-linux/libbalisecheck.so "$library"/libbalisecheck.* "$prefix/include/balisecheck.h" \
    "$library/pkgconfig/balisecheck.pc" "$library"/cmake/balisecheck/*
if grep -q '^library ' "$about"; then
    install -m 644 "${about%/*}"/libbalisecheck.* "$library"
    # A compiler looks for the first name. balisekit finds the library beside ABOUT.
    ln -s libbalisecheck.so.0 "$library/libbalisecheck.so"
    ln -sf ../../../../lib/libbalisecheck.so.0 "$kit/dist/x86_64-linux/libbalisecheck.so.0"
    install -m 644 "$top/crates/balisecheck_c/include/balisecheck.h" "$prefix/include"
    for file in pkgconfig/balisecheck.pc cmake/balisecheck/balisecheck-config.cmake \
        cmake/balisecheck/balisecheck-config-version.cmake; do
        where "$top/native/${file##*/}" | install -m 644 /dev/stdin "$library/$file"
    done
fi
ln -sf ../../bin/balisecheck "$kit/balisecheck"
ln -sf ../share/balisecheck/balisekit "$prefix/bin/balisekit"
printf 'installed: %s\n' "$prefix/bin/balisecheck" "$prefix/bin/balisekit" >&2
[ ! -e "$prefix/bin/balisecheck_table" ] || echo "installed: $prefix/bin/balisecheck_table" >&2
for page in balisecheck.1 balisecheck_table.1 balisekit.1; do
    [ -e "$pages/$page" ] || continue
    install -m 644 "$pages/$page" "$manual/$page"
    echo "installed: $manual/$page" >&2
done
# A clone has no manual page of balisekit: it is made here from the --help of its commands.
if [ -e "$top/dist/pack/manual" ]; then
    if command -v help2man >/dev/null && "$top/dist/pack/manual" "$kit"; then
        install -m 644 "$kit/balisekit.1" "$manual/balisekit.1"
        rm "$kit/balisekit.1"
        echo "installed: $manual/balisekit.1" >&2
    else
        echo "not installed: $manual/balisekit.1, which needs help2man" >&2
    fi
fi
