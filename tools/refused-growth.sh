#!/usr/bin/env bash
# Refuses each growth of memory in turn: of each session of tools/growth.sh, the first call for memory that it makes, then the
# second alone, and so on to the last, a run of ped for each. Wanted is status 6 with a front of the bytes that the session writes
# with ample memory; but the seventh isn't missed: the list of the words asks for less room then (docs/HOSTILE.md). It is no part of
# the gate, and wants a C compiler, for what stands between the program and the C library.
#
#   tools/refused-growth.sh [--program PROGRAM] [--every STEP] [--onward] [SESSION ..]
#
# The sessions are `wavefront`, `reversal`, whose step is undone and done again, `twelve`, which does each step but `reduce`, `sums`,
# which does that one, and `auto`; all where none is given. With --every only each such growth is refused, from the first one on; with --onward
# all behind it are refused with it. The program is the one that .ci/run or ./prove has proved and built from the present sources;
# nothing is proved or built here. There is a line for each session, and the status is 0 only where all is as wanted. docs/HOSTILE.md
# has the figures.
set -eu
export LC_ALL=C
top=$(cd -- "$(dirname -- "${BASH_SOURCE[0]}")/.." && pwd)

stop() {
    printf 'growth: none was refused: %s\n' "$1"
    exit 1
}

program=
every=1
onward=
while [ $# -gt 0 ]; do
    case $1 in
        --program) program=$(readlink -f -- "${2-}") && shift ;;
        --every) every=${2-} && shift ;;
        --onward) onward=yes ;;
        -*) stop "there is no option $1" ;;
        *) break ;;
    esac
    shift || stop 'an option wants a word'
done
[[ $every =~ ^[1-9][0-9]*$ ]] || stop '--every wants a number'
if [ -z "$program" ]; then
    # shellcheck source=tools/program.sh
    . "$top/tools/program.sh"
    program=$(program_of "$(sources_sum)")
fi
if ! [ -f "$program" ] || ! [ -x "$program" ]; then
    stop 'the proved program is not built; .ci/run or ./prove builds it'
fi
[ $# -gt 0 ] || set -- wavefront reversal twelve sums auto

work=$(mktemp -d)
trap 'rm -rf -- "$work"' EXIT
cd -- "$work"

# shellcheck source=tools/growth.sh
. "$top/tools/growth.sh"
make_growth

# ---- Runs

# Refuses growths by their numbers, and writes a line for each: its number, `front` or what else came, and how many bytes.
# shellcheck disable=SC2317
refuse() {
    local number status bytes
    for number; do
        status=0
        # Not `timeout` itself: its own memory isn't refused.
        timeout -k 1 20 env "GROWTH=$number" ${onward:+ONWARD=yes} "LD_PRELOAD=$work/growth.so" "$program" session program.f script \
            </dev/null >"got-$number" 2>"said-$number" || status=$?
        bytes=$(wc -c <"got-$number")
        if [ "$status" -eq 6 ] && [ ! -s "said-$number" ] && head -c "$bytes" ample | cmp -s - "got-$number"; then
            printf '%s front %s\n' "$number" "$bytes"
        elif [ "$status" -eq "$ample_status" ] && cmp -s ample "got-$number"; then
            printf '%s whole %s\n' "$number" "$bytes"
        else
            printf '%s status-%s %s\n' "$number" "$status" "$bytes"
        fi
        rm -- "got-$number" "said-$number"
    done
}
export -f refuse
export program work onward

failed=0
for session in "$@"; do
    write_session "$session"
    ample_status=0
    GROWTHS=$work/growths LD_PRELOAD=$work/growth.so "$program" session program.f script </dev/null >ample || ample_status=$?
    export ample_status
    growths=$(cat growths)
    [ "$growths" -gt 0 ] || stop 'the program takes its memory in another way'
    seq 1 "$every" "$growths" | xargs -n 100 -P "$(nproc)" bash -c 'refuse "$@"' refuse >told
    awk -v session="$session" -v growths="$growths" '
        $1 == 7 && $2 == "whole" { $2 = "less" } # The list of the words: behind a buffer for each of the four, for their list and for none.
        { kind[$2]++; if ($2 != "front" && $2 != "less") other = other "\n    growth " $1 ": " $2 ", " $3 " bytes" }
        $2 == "front" && $3 > most { most = $3 }
        END {
            printf "%s: of %d growths %d were refused: %d times status 6 and a front, of %d bytes at the most%s%s\n", \
                session, growths, NR, kind["front"], most, kind["less"] ? ", and one is not missed" : "", other
            exit kind["front"] + kind["less"] != NR
        }
    ' told || failed=1
    cmp -s ample - </dev/null && failed=1
done
exit "$failed"
