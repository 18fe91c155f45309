#!/usr/bin/env bash
# Checks what `ped generate N` reports against a session on the same program. The program and its script are written here, by
# what docs/GENERATED.md says of them; the figures are those that the session shows: how many statements its source pane
# numbers, how many rows its dependence pane has, which lines it answers `ok` or refuses, what `tested` prints at the opening
# and behind each accepted change, how many pairs a session tests that is opened on the last source, and what `run` prints
# before the script and behind it. And checks of each size from 1 to 300 that the run of its program ends, which no proof says.
#
#   tools/check-generated.sh [--program PROGRAM] [SIZE ..]      1 to 12, 100 and 300 where no size is given
#
# The program is the one that .ci/run or ./prove has proved and built from the present sources; nothing is proved or built
# here. Where sizes are given, only the programs of these are run. The last lines count the sizes. The status is 0 only where
# there are some, all agree and all runs end.
set -eu
export LC_ALL=C
top=$(cd -- "$(dirname -- "${BASH_SOURCE[0]}")/.." && pwd)

stop() {
    printf 'generated: none was run: %s\n' "$1"
    exit 1
}

if [ "${1-}" = --program ]; then
    [ $# -ge 2 ] || stop '--program wants a file'
    program=$(readlink -f -- "$2")
    shift 2
else
    # shellcheck source=tools/program.sh
    . "$top/tools/program.sh"
    program=$(program_of "$(sources_sum)")
fi
if ! [ -f "$program" ] || ! [ -x "$program" ]; then
    stop 'the proved program is not built; .ci/run or ./prove builds it'
fi
if [ $# -gt 0 ]; then
    run_sizes=("$@")
else
    set -- 1 2 3 4 5 6 7 8 9 10 11 12 100 300
    mapfile -t run_sizes < <(seq 1 300)
fi

work=$(mktemp -d)
trap 'rm -rf -- "$work"' EXIT
cd -- "$work"

# The program of a size.
made() {
    awk -v size="$1" '
        function nest(bounds, assignment) {
            print "      DO I = " bounds
            print "        DO J = " bounds
            print "          " assignment
            print "        END DO"
            print "      END DO"
        }
        BEGIN {
            print "      INTEGER A(10,10), B(10,10)"
            print "      SAVE A, B"
            nest("1, 10", "A(I,J) = I+J")
            for (k = 1; k <= size; k++) {
                if (k % 3 == 1) nest("2, 9", "A(I,J) = MOD(A(I-1,J)+A(I,J-1),1000)")
                if (k % 3 == 2) nest("2, 9", "A(I,J) = MOD(A(I-1,J+1)+" k ",1000)")
                if (k % 3 == 0) nest("2, 9", "B(I,J) = A(I,J)+" k)
            }
            print "      END"
        }
    '
}

# A session that shows all figures, with its script: each command of the made script has a line `tested` behind it.
asked() {
    awk -v size="$1" '
        BEGIN {
            print "tested"
            print "run"
            for (k = 1; k <= size; k++) {
                print "interchange " 3 * k + 1
                print "tested"
                print "parallel " 3 * k + 2
                print "tested"
            }
            print "run"
            print "show"
        }
    '
}

# What a session answers to that, as the report of a size; all but the pairs of the last program.
told() {
    awk -v size="$1" '
        BEGIN { was = "opened" }
        /^tested / { if (was) tested += $2; was = ""; next }
        /: ok$/ { accepted++; was = "changed"; next }
        /: refused / { refused++; next }
        /^source / { lines = $2; next }
        lines > 0 { lines--; if (substr($0, 7, 4) + 0 > 0) statements = substr($0, 7, 4) + 0; next }
        /^dependences / { edges = $2; next }
        /^ended$/ { runs++; block[runs] = "ended\n"; next }
        /^fault / { runs++; faults++; next }
        /^[|] / || /^live / { block[runs] = block[runs] $0 "\n"; next }
        END {
            printf "generated %d\nstatements %d\naccepted %d\nrefused %d\ntested %d\nedges %d\n", size, statements, accepted, refused, tested, edges
            print "runs " (runs == 2 && !faults && block[1] == block[2] ? "equal" : "differ")
        }
    '
}

count=0
failed=0
for size in "$@"; do
    count=$((count + 1))
    made "$size" >program.f
    asked "$size" >script
    printf 'print\n' >print
    printf 'tested\n' >tested
    "$program" session program.f print >printed || true
    { "$program" session program.f script || true; } >answer
    told "$size" <answer >wanted
    # The last source is what stands in its pane, from column 12 on.
    awk '/^source / { lines = $2; next } lines > 0 { lines--; print substr($0, 12) }' answer >last.f
    pairs=$("$program" session last.f tested || true)
    sed -i "2a pairs ${pairs#tested }" wanted
    "$program" generate "$size" >got || true
    if ! cmp -s program.f printed; then
        printf 'generated: the program of size %s is not in printed form\n' "$size"
        failed=$((failed + 1))
    elif ! diff -u --label "session $size" --label "generate $size" wanted got; then
        failed=$((failed + 1))
    fi
done

printf 'run\n' >run
ended=0
for size in "${run_sizes[@]}"; do
    made "$size" >program.f
    answer=$("$program" session program.f run || true)
    if [ "${answer%%$'\n'*}" = ended ]; then
        ended=$((ended + 1))
    else
        printf 'generated: the run of the program of size %s does not end: %s\n' "$size" "${answer%%$'\n'*}"
    fi
done
printf 'generated: %d of %d sizes agree\n' $((count - failed)) "$count"
printf 'generated: %d of %d runs end\n' "$ended" "${#run_sizes[@]}"
[ "$count" -gt 0 ] && [ "$failed" -eq 0 ] && [ "$ended" -eq "${#run_sizes[@]}" ]
