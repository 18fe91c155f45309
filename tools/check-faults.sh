#!/usr/bin/env bash
# Runs the cases of cases/faults/ over the program of crate ped_faults, and those that tools/cuts.py writes: what a call
# answers where a read or a write of it fails, where each moves few bytes, and where its program or its script is cut behind
# each byte; byte for byte.
#
#   tools/check-faults.sh [--program PROGRAM]
#
# The program is the one that .ci/run has built from the present sources; nothing is proved or built here. The last
# line counts the cases. The status is 0 only where there are some and all passed.
set -eu
top=$(cd -- "$(dirname -- "${BASH_SOURCE[0]}")/.." && pwd)

stop() {
    printf 'faults: none was run: %s\n' "$1"
    exit 1
}

if [ "${1-}" = --program ]; then
    [ $# -eq 2 ] || stop '--program wants a file'
    program=$(readlink -f -- "$2")
else
    # shellcheck source=tools/program.sh
    . "$top/tools/program.sh"
    program=$(program_of "$(sources_sum)" ped_faults)
fi
if ! [ -f "$program" ] || ! [ -x "$program" ]; then
    stop 'the program is not built; .ci/run builds it'
fi

cd -- "$top"
mapfile -t files < <(find cases/faults -type f | LC_ALL=C sort)
[ "${#files[@]}" -gt 0 ] || stop 'cases/faults holds no file'

work=$(mktemp -d)
trap 'rm -rf -- "$work"' EXIT
python3 tools/cuts.py >"$work/cuts.cases" || stop 'tools/cuts.py writes no cases'
tools/check-cases.sh --program "$program" "${files[@]}" "$work/cuts.cases"
