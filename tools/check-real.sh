#!/usr/bin/env bash
# Runs the tests of the companion on real Fortran, over the built program. They need the Python library fparser: where
# it is missing, root installs Debian's package with apt-get; anybody else is told its name.
#
#   tools/check-real.sh [--program PROGRAM]
#
# The program is the one that .ci/run or ./prove has built from the present sources; nothing is proved or built here. It
# requires python3, 3.8 or later. The status is 0 only where all tests passed.
set -eu
top=$(cd -- "$(dirname -- "${BASH_SOURCE[0]}")/.." && pwd)

stop() {
    printf 'real: nothing was tested: %s\n' "$1"
    exit 1
}

# Whether the library is there, and in the version that the tests are for; says what is missing.
look() {
    python3 -c '
import sys
from companion.real.library import LibraryMissing, statement_classes
try:
    sys.exit(statement_classes().note)
except LibraryMissing as error:
    sys.exit(str(error))
' 2>&1
}

if [ "${1-}" = --program ]; then
    [ $# -eq 2 ] || stop '--program takes a file'
    program=$(readlink -f -- "$2")
else
    # shellcheck source=tools/program.sh
    . "$top/tools/program.sh"
    program=$(program_of "$(sources_sum)")
fi
if ! [ -f "$program" ] || ! [ -x "$program" ]; then
    stop 'the program is not built; .ci/run or ./prove builds it'
fi
cd -- "$top"
command -v python3 >/dev/null || stop 'python3 is not there'
python3 -c 'import sys; sys.exit(sys.version_info < (3, 8))' ||
    stop "python3 is $(python3 --version 2>&1), and 3.8 or later is required"
export PYTHONDONTWRITEBYTECODE=1 PEDX_PED=$program
if ! look >/dev/null && [ "$(id -u)" = 0 ] && command -v apt-get >/dev/null; then
    printf 'real: fparser is missing, and python3-fparser is installed\n'
    was_missing=yes
    apt-get install -y python3-fparser >/dev/null 2>&1 ||
        { apt-get update && apt-get install -y python3-fparser; } >/dev/null 2>&1 ||
        stop 'apt-get could not install python3-fparser'
fi
missing=$(look) || stop "$missing"
command -v gfortran >/dev/null || printf 'real: gfortran is not there, so nothing is compiled and run\n'

work=$(mktemp)
trap 'rm -f -- "$work"' EXIT
# Tests that need no library by themselves skip what they can't read without it, so they are run here, too.
if python3 -m unittest discover -s companion/tests -t . -p '*real_*.py' >"$work" 2>&1; then
    printf 'real: as wanted (%s)\n' "$(grep -E '^Ran [0-9]+ tests' "$work")"
else
    cat -- "$work"
    printf 'real: tests failed\n'
    exit 1
fi
# What the pages show of it was passed over by the checks before this one.
[ -z "${was_missing-}" ] || tools/check-docs.py README.md docs/COMPANION.md docs/REAL.md examples/real/README.md
