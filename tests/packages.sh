# The Debian packages that the tests need, and who installs them. To be read by bash.

# A package is here if its command is, or its module of Python, or else what follows its name.
packages='python3 gcc clang cmake pkgconf=pkg-config libc6-dev=/usr/include/stdio.h binutils=readelf g++ default-jdk-headless=javac
    libjna-java=/usr/share/java/jna.jar git groff-base=groff jq parallel valgrind mkdocs help2man twine lintian
    python3-pytest python3-pytest-xdist=python:xdist python3-hypothesis python3-jsonschema python3-coverage
    python3-junitparser python3-jinja2 python3-html5lib python3-openpyxl python3-defusedxml python3-rich python3-pip
    python3-hatchling openssh-client=ssh-keygen shellcheck python3-license-expression=python:license_expression
    python3-venv=python:ensurepip mypy=python:mypy flake8=python:flake8 black=python:black
    wamerican=/usr/share/dict/american-english wbritish=/usr/share/dict/british-english'
# Installed only by the gate: it is large, and some distributions lack it.
browser=chromium
# What runs the program for other systems, as large: also installed only by the gate. (nodejs 20 or later is needed.)
systems='nodejs=node node-typescript=tsc firefox-esr unzip qemu-user=qemu-aarch64 gcc-aarch64-linux-gnu=aarch64-linux-gnu-gcc
    libc6-arm64-cross=/usr/aarch64-linux-gnu/lib/libc.so.6 libc6-dev-arm64-cross=/usr/aarch64-linux-gnu/include/stdio.h
    wine wine64=/usr/lib/wine/wine64 gcc-mingw-w64-x86-64=x86_64-w64-mingw32-gcc
    binutils-mingw-w64-x86-64=x86_64-w64-mingw32-objdump'

# Debian's Python has Debian's packages, whatever comes first on the path.
python=${PYTHON:-/usr/bin/python3}
command -v "$python" >/dev/null || python=${PYTHON:-python3}

# is_here SIGN: whether there is this command, file or module.
is_here() {
    case $1 in
    python3) command -v "$python" >/dev/null ;;
    python:*) "$python" -c "import importlib.util as it; raise SystemExit(not it.find_spec('${1#*:}'))" 2>/dev/null ;;
    /*) [ -e "$1" ] ;;
    *) command -v "$1" >/dev/null ;;
    esac
}

# install PACKAGES: root installs what is not here of these words, without what this release of Debian or Ubuntu lacks.
# Anybody else gets the command.
install() {
    local it sign lacks=() known=() command=(apt-get install --no-install-recommends)
    for it in $1; do
        sign=${it#*=}
        is_here "${sign/#python3-/python:}" || lacks+=("${it%%=*}")
    done
    [ "${#lacks[@]}" -gt 0 ] || return 0
    [ "$(id -u)" = 0 ] || { echo "to run all tests: sudo ${command[*]} ${lacks[*]}" && return; }
    timeout 300 apt-get update >"$room/installed" 2>&1
    for it in "${lacks[@]}"; do ! apt-cache show "$it" >/dev/null 2>&1 || known+=("$it"); done
    echo "== ${command[*]} ${known[*]}"
    DEBIAN_FRONTEND=noninteractive timeout 600 "${command[@]}" -y "${known[@]}" >"$room/installed" 2>&1 ||
        { tail -n 3 "$room/installed" && echo 'not installed: what needs them is skipped'; }
}
