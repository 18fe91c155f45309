#!/usr/bin/env bash
# Runs the tests of the companion pedx over the built program: over all examples, the cases, and the pages that show
# what it prints. Where gfortran is there, the translated examples are compiled and run.
#
#   tools/check-companion.sh [--program PROGRAM]
#
# The program is the one that .ci/run or ./ped has built from the present sources; nothing is proved or built here. It
# wants python3, 3.8 or later. The status is 0 only where all tests passed.
set -eu
top=$(cd -- "$(dirname -- "${BASH_SOURCE[0]}")/.." && pwd)

stop() {
    printf 'companion: nothing was tested: %s\n' "$1"
    exit 1
}

if [ "${1-}" = --program ]; then
    [ $# -eq 2 ] || stop '--program wants a file'
    program=$(readlink -f -- "$2")
else
    # shellcheck source=tools/program.sh
    . "$top/tools/program.sh"
    program=$(program_of "$(sources_sum)")
fi
if ! [ -f "$program" ] || ! [ -x "$program" ]; then
    stop 'the program is not built; .ci/run or ./ped builds it'
fi
if ! command -v python3 >/dev/null; then
    stop 'python3 is not there'
fi
if ! python3 -c 'import sys; sys.exit(sys.version_info < (3, 8))'; then
    stop "python3 is $(python3 --version 2>&1), and 3.8 or later is wanted"
fi
command -v gfortran >/dev/null || printf 'companion: gfortran is not there, so no translated program is compiled\n'
command -v chromium >/dev/null || printf 'companion: skipped: no page is opened, since the package chromium is not installed\n'
command -v nvim >/dev/null || printf 'companion: skipped: no editor is served, since the package neovim is not installed\n'

cd -- "$top"
work=$(mktemp)
# The tests start pedx hundreds of times; compiled modules are kept for all of them, and not in the tree.
compiled=$(mktemp -d)
trap 'rm -rf -- "$work" "$compiled"' EXIT
export PEDX_PED=$program PYTHONPYCACHEPREFIX=$compiled
unset PYTHONDONTWRITEBYTECODE
if python3 -m unittest discover -s companion/tests -t . >"$work" 2>&1; then
    printf 'companion: as wanted (%s)\n' "$(grep -E '^Ran [0-9]+ tests' "$work")"
else
    cat -- "$work"
    printf 'companion: tests failed\n'
    exit 1
fi
