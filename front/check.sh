#!/bin/sh
# All tests of the front door, over the program that is given or that demo/build.sh builds. As root it installs the Debian
# packages that are missing; the page's tests are skipped without Chromium, those of R without R, that of the units without a container for
# systemd, and those of PostgreSQL's lines without its server, which isn't installed for them, and that is counted.
#
#   front/check.sh [PROGRAM]
set -u
front=$(cd "$(dirname "$0")" && pwd)
top=$(dirname "$front")
if [ $# -gt 0 ]; then
    program=$(realpath "$1")
    if [ ! -f "$program" ] || [ ! -x "$program" ]; then
        echo "check: there is no program $1" >&2
        exit 1
    fi
else
    program=$top/crates/auditor/out/auditor
    if [ ! -x "$program" ]; then
        . "$top/demo/build.sh"
        build || { echo "check: the program isn't built. demo/run.sh builds it, with the Rattle kit" >&2; exit 1; }
    fi
fi

missing() {
    for package in "$@"; do
        dpkg -s "$package" >/dev/null 2>&1 || printf ' %s' "$package"
    done
}

# Some packages start a server once they are installed; at runlevel 1 they don't.
install() {
    [ $# -gt 0 ] || return 0
    echo "check: installing $*" >&2
    apt-get update -qq >/dev/null 2>&1
    RUNLEVEL=1 DEBIAN_FRONTEND=noninteractive apt-get install -y -qq --no-install-recommends "$@" >/dev/null 2>&1
}

needed="python3-aiohttp python3-pandas python3-scipy python3-openpyxl python3-jsonschema socat nginx binutils"
wanted="chromium chromium-driver python3-selenium fonts-dejavu-core r-base-core r-cran-jsonlite r-cran-curl systemd-container lintian"
if [ "$(id -u)" = 0 ] && command -v apt-get >/dev/null; then
    install $(missing $needed)
    install $(missing $wanted) || for package in $(missing $wanted); do install "$package"; done
fi
if [ -n "$(missing $needed)" ]; then
    echo "check: apt-get install --no-install-recommends$(missing $needed)" >&2
    exit 1
fi
[ -z "$(missing $wanted)" ] || echo "check: not installed, so their tests are skipped:$(missing $wanted)" >&2
AUDITOR=$program exec /usr/bin/python3 "$front/tests/all.py"
