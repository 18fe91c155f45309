#!/usr/bin/env bash
# Measures how long `ped show` takes, and how much memory, on files of program units: of each shape three sizes, of which each is
# twice the one before, up to the limits of files and of statements. It is no part of the gate, and needs GNU time and awk;
# tools/bench.sh runs it, too. docs/PERFORMANCE.md has the table that it writes, and says how to read the figures.
#
#   tools/bench-units.sh [--program PROGRAM] [--runs RUNS] [SHAPE ..]      of so many runs (5 where it isn't said) the least counts
#
# The program is the one that .ci/run or ./prove has proved and built from the present sources; nothing is proved or built here. The
# shapes are empty, chain, ring, ladder, calls, called, many, repeated, last and constants; all where none is given. The status is 0
# only where each file is answered as it should be.
set -eu
export LC_ALL=C
top=$(cd -- "$(dirname -- "${BASH_SOURCE[0]}")/.." && pwd)

stop() {
    printf 'bench: nothing was measured: %s\n' "$1" >&2
    exit 1
}

program=
runs=5
while [ $# -gt 0 ]; do
    case $1 in
        --program) program=$(readlink -f -- "${2-}") && shift ;;
        --runs) runs=${2-} && shift ;;
        -*) stop "there is no option $1" ;;
        *) break ;;
    esac
    shift || stop 'an option wants a word'
done
[[ $runs =~ ^[1-9][0-9]*$ ]] || stop '--runs wants a number'
if [ -z "$program" ]; then
    # shellcheck source=tools/program.sh
    . "$top/tools/program.sh"
    program=$(program_of "$(sources_sum)")
fi
if ! [ -f "$program" ] || ! [ -x "$program" ]; then
    stop 'the proved program is not built; .ci/run or ./prove builds it'
fi
[ $# -gt 0 ] || set -- empty chain ring ladder calls called many repeated last constants

work=$(mktemp -d)
trap 'rm -rf -- "$work"' EXIT
failed=0

# A file of a shape, with so many subroutines, or so many CALLs. Names have no more characters than they need.
file_of() {
    awk -v shape="$1" -v n="$2" '
        # The name with a number from 0 on: a letter, and then letters and digits.
        function name(k,    text) {
            text = substr(letters, k % 26 + 1, 1)
            for (k = int(k / 26); k > 0; k = int(k / 36)) text = text substr(letters, k % 36 + 1, 1)
            return text
        }
        function line(text) { printf "      %s\n", text }
        # A subroutine with so many statements K=1, or with one statement of its own.
        function unit(head, text,    k) {
            line("SUBROUTINE " head)
            for (k = 0; k < text + 0; k++) line("K=1")
            if (text !~ /^[0-9]*$/) line(text)
            line("END")
        }
        function calls(count, text,    k) { for (k = 0; k < count; k++) line(text) }
        BEGIN {
            letters = "ABCDEFGHIJKLMNOPQRSTUVWXYZ0123456789"
            if (shape == "empty") {
                line("END")
                for (k = 0; k < n; k++) unit(name(k), "")
            } else if (shape == "chain" || shape == "ring") {
                line("CALL A"); line("END")
                for (k = 0; k < n - 1; k++) unit(name(k), "CALL " name(k + 1))
                unit(name(n - 1), shape == "ring" ? "CALL A" : "")
            } else if (shape == "ladder") {
                # Each subroutine calls the one before it, and one that calls itself, behind all.
                line("END")
                for (k = 1; k <= n; k++) {
                    line("SUBROUTINE " name(k))
                    if (k > 1) line("CALL " name(k - 1))
                    line("CALL A"); line("END")
                }
                unit("A", "CALL A")
            } else if (shape == "calls") {
                calls(n, "CALL S"); line("END"); unit("S", "")
            } else if (shape == "called") {
                line("DO I=1,9"); calls(n, "CALL S(K,I+1)"); line("END DO"); line("END"); unit("S(L,M)", "N=L+M")
            } else if (shape == "many") {
                # The main program calls one of ten, and the others call that.
                line("INTEGER V(99)")
                for (k = 0; k < n; k += 10) line("CALL " name(k) "(V," k "+I)")
                line("END")
                for (k = 0; k < n; k++) {
                    line("SUBROUTINE " name(k) "(W,J)"); line("INTEGER W(99)"); line("L=W(J)+" k); line("W(J)=MAX(L,J)")
                    if (k % 10) line("CALL " name(k - k % 10) "(W,L)")
                    line("END")
                }
            } else if (shape == "last") {
                calls(n, "CALL S"); line("CALL T"); line("END"); unit("S", ""); unit("T", 3999)
            } else if (shape == "constants") {
                # As many named constants as CALLs, none of which occurs in a statement.
                calls(n, "CALL S"); line("END"); line("SUBROUTINE S")
                for (k = 0; k < n; k++) line("PARAMETER (I" name(k) "=1)")
                line("END")
            } else if (shape == "repeated") {
                # Each subroutine calls the next one twice, as many as would come to 2^n CALLs.
                line("CALL A"); line("END")
                for (k = 0; k < n; k++) {
                    line("SUBROUTINE " name(k)); line("CALL " name(k + 1)); line("CALL " name(k + 1)); line("END")
                }
                unit(name(n), "")
            }
        }'
}

# The least processor time in seconds and the most memory in KiB of so many runs over a file; what is answered is in `got`.
measure() {
    local i best=''
    for ((i = 0; i < runs; i++)); do
        command time -q -f '%U %S %M' -o "$work/figure" "$program" show "$1" >"$work/got" 2>&1 || true
        best=$(awk -v best="$best" 'END { split(best, was); sum = $1 + $2; print (best == "" || sum < was[1]) ? sum " " $3 : best }' "$work/figure")
    done
    printf '%s\n' "$best"
}

# Rows for files of a shape, in so many sizes: the answer is the first line of what is shown.
rows() {
    local shape=$1 wanted=$2 size answer
    shift 2
    for size; do
        file_of "$shape" "$size" >"$work/file.f"
        measure "$work/file.f" >"$work/figures"
        answer=$(head -n 1 "$work/got")
        # What is wanted is a pattern.
        # shellcheck disable=SC2053
        if [[ $answer != $wanted ]]; then
            printf 'bench: %s %s: the answer is %s, and %s is wanted\n' "$shape" "$size" "$answer" "$wanted" >&2
            failed=1
        fi
        awk -v shape="$shape" -v answer="$answer" -v figures="$(cat "$work/figures")" '
            { bytes += length($0) + 1 }
            $1 == "SUBROUTINE" { units++ }
            $1 == "CALL" { calls++ }
            END {
                split(figures, cost)
                printf "| %s | %d | %d | %d | `%s` | %.3f | %.1f |\n", shape, bytes, units, calls, answer, cost[1], cost[2] / 1024
            }' "$work/file.f"
    done
}

printf '| Shape | Bytes | Subroutines | CALLs | Answer | Seconds | MiB |\n|---|---|---|---|---|---|---|\n'
for shape; do
    case $shape in
        empty) rows empty 'source 1' 8450 16900 33800 ;;
        chain) rows chain 'ped: refused 13 Limit at 1' 5700 11400 22800 ;;
        ring) rows ring 'ped: refused 21 Recursion at 4' 5700 11400 22800 ;;
        ladder) rows ladder 'ped: refused 21 Recursion at *' 4200 8400 16800 ;;
        calls) rows calls 'source *' 1000 2000 4000 ;;
        called) rows called 'source *' 300 600 1200 ;;
        many) rows many 'source *' 2250 4500 9000 ;;
        repeated) rows repeated 'ped: refused 13 Limit at 1' 25 50 100 ;;
        last) rows last 'ped: refused 13 Limit at *' 900 1800 3600 ;;
        constants) rows constants 'source *' 1000 2000 4000 ;;
        *) stop "there is no shape $shape" ;;
    esac
done
[ "$failed" -eq 0 ]
