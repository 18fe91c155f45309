#!/usr/bin/env bash
# Measures the time and the memory that ped takes. It prints a table for each of these:
# - `session`, for each byte of a script;
# - a `privatise` that is refused, which makes the flow of scalars and asks it;
# - `run`, for an assignment over an array and over a scalar, from 10^4 to 10^7 of them, and a store of 2^20 elements;
# - `races`, for an access, at 10^5 and 10^6 of them;
# - `show`, for each byte of programs of 64 KiB to 1 MiB, and for each pair of references of nests of two and six loops;
# - the stack that programs at the limits of the language need;
# - `races` and `run`, for an operand of an expression, with up to 600 of them;
# - an edit, a step back and a step forward, and the memory that a change keeps;
# - `generate`, by its size;
# - `auto`, with the steps that it tries and takes, and the pairs that these test;
# - `show` on files of program units (tools/bench-units.sh);
# - the instructions that other programs take for the same work (tools/anchors.sh).
# It is no part of the gate, and needs GNU time and awk. docs/PERFORMANCE.md says how to read the figures.
#
# usage: tools/bench.sh [RUNS]      of so many runs (5 where it isn't said) the least counts
set -eu
cd -- "$(dirname -- "${BASH_SOURCE[0]}")/.."
runs=${1:-5}

work=$(mktemp -d)
trap 'rm -rf -- "$work"' EXIT

# A program of loops with no more bytes than this, of which each statement has four comments before it, so
# that one of 1 MiB has fewer than 4,000 statements.
commented() {
    awk -v size="$1" '
        function put(line) { text = text note note note note line "\n" }
        BEGIN {
            note = "C     " sprintf("%65s", "of the rows that follow, each sum is kept") "\n"
            head = "      PROGRAM SUMS\n      INTEGER A(512), B(512)\n"
            end = "      END\n"
            printf "%s", head
            total = length(head) + length(end)
            for (;;) {
                text = ""
                put("      DO 10 I = 2, 511")
                put("        IF (B(I).GT.A(I-1)) THEN")
                put("          A(I) = A(I-1)+B(I)*3-MOD(I,7)")
                put("        ELSE")
                put("          A(I) = (A(I)+B(I+1))/2")
                put("        END IF")
                put("   10 CONTINUE")
                total += length(text)
                if (total > size) { break }
                printf "%s", text
            }
            printf "%s", end
        }
    '
}

# Two loops in one another with so many statements of two reads and a write of one array: 5 n^2 pairs of references.
two_deep() {
    awk -v n="$1" 'BEGIN {
        print "      INTEGER A(100,100)"
        print "      DO 20 I = 2, 100"
        print "      DO 10 J = 2, 100"
        for (k = 0; k < n; k++) print "      A(I,J) = A(I-1,J)+A(I,J-1)"
        print "   10 CONTINUE"
        print "   20 CONTINUE"
        print "      END"
    }'
}

# Six loops in one another with so many statements, of which each subscript has indices of two loops.
six_deep() {
    awk -v n="$1" 'BEGIN {
        print "      INTEGER A(64,64)"
        for (k = 1; k <= 6; k++) printf "      DO %d I%d = 2, 9\n", 70 - 10 * k, k
        for (k = 0; k < n; k++) print "      A(I1+I2,I3+2*I4) = A(I1+I2-1,I3+I5)+A(I2+I6,I3+I4+1)"
        for (k = 6; k >= 1; k--) printf "%5d CONTINUE\n", 70 - 10 * k
        print "      END"
    }'
}

# As many statements as there may be, six loops in one another, and statements of 64 references.
many_references() {
    awk '
        function statement(text, i) {
            for (i = 1; i <= length(text); i += 66) printf "%s%s\n", i == 1 ? "      " : "     &", substr(text, i, 66)
        }
        BEGIN {
            print "      INTEGER A(9)"
            for (k = 1; k <= 6; k++) printf "      DO %d I%d = 1, 9\n", 70 - 10 * k, k
            text = "A(1)"
            for (j = 1; j < 63; j++) text = text "+A(" j % 9 + 1 ")"
            for (k = 0; k < 20; k++) statement("K" k "=" text)
            for (k = 6; k >= 1; k--) printf "%5d CONTINUE\n", 70 - 10 * k
            for (k = 26; k < 4000; k++) print "      L = 1"
            print "      END"
        }
    '
}

# Parentheses as deep as one statement allows, and blocks as deep as they may stand.
deep_blocks() {
    awk '
        function statement(text, i) {
            for (i = 1; i <= length(text); i += 66) printf "%s%s\n", i == 1 ? "      " : "     &", substr(text, i, 66)
        }
        BEGIN {
            for (k = 0; k < 99; k++) print "      IF (K.EQ.1) THEN"
            for (k = 0; k < 640; k++) { left = left "("; right = right ")" }
            statement("K=" left "1" right)
            for (k = 0; k < 99; k++) print "      END IF"
            print "      END"
        }
    '
}

# The least stack in KiB, in steps of 16, with which a file is shown.
least_stack() {
    local low=0 high=512 middle
    while ((high - low > 1)); do
        middle=$(((low + high) / 2))
        if (ulimit -s "$((middle * 16))" && "$ped" show "$1" >"$work/shown" 2>/dev/null); then
            high=$middle
        else
            low=$middle
        fi
    done
    printf '%s\n' "$((high * 16))"
}

# The least of the runs' sums of what GNU time writes in this format for showing a file so many times.
least_show() {
    local best='' i
    for ((i = 0; i < runs; i++)); do
        # The inner shell counts.
        # shellcheck disable=SC2016
        command time -f "$1" -o "$work/figure" \
            bash -c 'for ((k = 0; k < $3; k++)); do "$1" show "$2" >/dev/null; done' - "$ped" "$2" "$3"
        best=$(awk -v best="$best" '{ sum = $1 + $2; print (best == "" || sum < best) ? sum : best }' "$work/figure")
    done
    printf '%s\n' "$best"
}

# The least of the runs' sums of what GNU time writes in this format, for a session of a script on a program.
least_session() {
    local best='' i
    for ((i = 0; i < runs; i++)); do
        command time -f "$1" -o "$work/figure" "$ped" session "$2" "$3" >/dev/null || true
        best=$(awk -v best="$best" '{ sum = $1 + $2; print (best == "" || sum < best) ? sum : best }' "$work/figure")
    done
    printf '%s\n' "$best"
}

# The launcher proves and builds ped where that hasn't been done. What starting it takes is left out: it is the
# time of showing a small file.
./prove
# shellcheck source=tools/program.sh
. "$PWD/tools/program.sh"
ped=$(program_of "$(sources_sum)")

printf 'processors: %s\n' "$(nproc)"

# Commands of each kind, again and again, with no more bytes than this. On a program of END alone each is answered at once.
all_commands() {
    awk -v size="$1" 'BEGIN {
        text = "source\ndeps\ndeps 3\nshow\nprint\nadvise 2\nreplace 1 2\n      K = 1\n.\ninsert 4\n      K = 2\n      K = 3\n.\n"
        text = text "delete 1 2\ninterchange 1\nreverse 1\nskew 1 -2\nstrip 1 16\npeel 1 first\npeel 1 last\ndistribute 1\n"
        text = text "fuse 1\nexpand 1 T\nprivatise 1 T\nreduce 1 T U\nparallel 1\nserial 1\nreject 1 A\nundo\nredo\nraces\n"
        for (total = length(text); total <= size; total += length(text)) printf "%s", text
    }'
}
printf '      END\n' >"$work/nothing.f"
: >"$work/no-script"
printf '\n%10s %10s\n' script ns/byte
for kib in 64 256 1024; do
    all_commands "$((kib * 1024))" >"$work/script"
    bytes=$(wc -c <"$work/script")
    awk -v bytes="$bytes" -v seconds="$(least_session '%U %S' "$work/nothing.f" "$work/script")" \
        -v no_seconds="$(least_session '%U %S' "$work/nothing.f" "$work/no-script")" 'BEGIN {
            printf "%10d %10.1f\n", bytes, (seconds - no_seconds) * 1e9 / bytes
        }'
done

# So many statements with 1,000 scalars, in one loop or in six, where each group has an IF that assigns one scalar in either part.
flows() {
    awk -v loops="$1" -v n="$2" 'BEGIN {
        for (k = 1; k <= loops; k++) printf "      DO %d I%d = 1, 9\n", 70 - 10 * k, k
        for (k = 0; 3 * k + loops + 3 <= n; k++) {
            printf "      IF (I1.EQ.%d) THEN\n      N%d = N%d+1\n      ELSE\n", k, k % 1000, (k + 999) % 1000
            printf "      N%d = N%d\n      END IF\n", k % 2 ? k % 1000 : (k + 500) % 1000, (k + 998) % 1000
        }
        for (k = loops; k >= 1; k--) printf "%5d CONTINUE\n", 70 - 10 * k
        print "      END"
    }'
}
# A `privatise` that is refused makes the flow and asks it.
for ((k = 0; k < 100; k++)); do echo "privatise 1 N8"; done >"$work/privatise"
printf '\n%10s %10s %12s\n' loops statements ms/privatise
while read -r loops statements; do
    flows "$loops" "$statements" >"$work/flows.f"
    awk -v loops="$loops" -v statements="$statements" -v asked="$(least_session '%U %S' "$work/flows.f" "$work/privatise")" \
        -v not_asked="$(least_session '%U %S' "$work/flows.f" "$work/no-script")" 'BEGIN {
            printf "%10d %10d %12.1f\n", loops, statements, (asked - not_asked) * 1e3 / 100
        }'
done <<'END'
1 1000
1 4000
6 4000
END

# So many assignments in two loops over an array, repeated, or in one loop over a scalar. The data are empty.
in_array() {
    awk -v n="$1" 'BEGIN {
        print "      INTEGER A(101,101)"
        print "      DO 5 I = 1, 101"
        print "      A(I,1) = 0"
        print "    5 A(1,I) = 0"
        printf "      DO 30 K = 1, %d\n", n / 10000
        print "      DO 20 I = 2, 101"
        print "      DO 10 J = 2, 101"
        print "   10 A(I,J) = A(I-1,J)+A(I,J-1)"
        print "   20 CONTINUE"
        print "   30 CONTINUE"
        print "      END"
    }'
}
in_scalar() {
    printf '      K = 0\n      DO 10 I = 1, %d\n   10 K = K+I-I+1\n      PRINT *, K\n      END\n' "$1"
}
printf '\n%10s %12s %15s\n' over assignments ns/assignment
printf 'run\n' >"$work/run"
printf 'races\n' >"$work/races"
for over in array scalar; do
    for assignments in 10000 100000 1000000 10000000; do
        "in_$over" "$assignments" >"$work/run.f"
        awk -v over="$over" -v assignments="$assignments" \
            -v seconds="$(least_session '%U %S' "$work/run.f" "$work/run")" \
            -v no_seconds="$(least_session '%U %S' "$work/nothing.f" "$work/run")" 'BEGIN {
                printf "%10s %12d %15.0f\n", over, assignments, (seconds - no_seconds) * 1e9 / assignments
            }'
    done
done
printf '      INTEGER A(1024,1024)\n      A(1,1) = 1\n      END\n' >"$work/run.f"
awk -v peak="$(least_session %M "$work/run.f" "$work/run")" -v no_peak="$(least_session %M "$work/nothing.f" "$work/run")" \
    'BEGIN { printf "store of 2^20 elements: %.1f MiB\n", (peak - no_peak) / 1024 }'

# Programs without a race and with so many accesses: one PARALLEL DO whose iterations have an element each; one of 100 iterations
# that go over their elements again and again; and a PARALLEL DO of 100 iterations that is executed again and again.
races_of_elements() {
    printf '      INTEGER A(1000000)\n      PARALLEL DO 10 I = 1, %d\n   10 A(I) = 0\n      END\n' "$(($1 / 2))"
}
races_of_iterations() {
    printf '      INTEGER A(100)\n      PARALLEL DO 20 I = 1, 100\n      DO 10 J = 1, %d\n   10 A(I) = J\n   20 CONTINUE\n      END\n' "$(($1 / 300))"
}
races_of_executions() {
    printf '      INTEGER A(100)\n      DO 20 K = 1, %d\n      PARALLEL DO 10 I = 1, 100\n   10 A(I) = K\n   20 CONTINUE\n      END\n' "$(($1 / 300))"
}
printf '\n%12s %10s %10s %10s %8s\n' races accesses ns/access 'run alone' MiB
rm -f -- "$work/figures"
for kind in elements iterations executions; do
    for accesses in 100000 1000000; do
        "races_of_$kind" "$accesses" >"$work/run.f"
        answer=$("$ped" session "$work/run.f" "$work/races")
        [ "$answer" = 'no race' ] || printf 'bench: %s\n' "$answer" >&2
        awk -v kind="$kind" -v accesses="$accesses" \
            -v seconds="$(least_session '%U %S' "$work/run.f" "$work/races")" \
            -v run_seconds="$(least_session '%U %S' "$work/run.f" "$work/run")" \
            -v no_seconds="$(least_session '%U %S' "$work/nothing.f" "$work/races")" \
            -v peak="$(least_session %M "$work/run.f" "$work/races")" -v no_peak="$(least_session %M "$work/run.f" "$work/run")" 'BEGIN {
                time = (seconds - no_seconds) * 1e9 / accesses
                alone = (run_seconds - no_seconds) * 1e9 / accesses
                printf "%12s %10d %10.0f %10.0f %8.1f\n", kind, accesses, time, alone, peak > no_peak ? (peak - no_peak) / 1024 : 0
            }' | tee -a "$work/figures"
    done
done
awk 'NR % 2 { before = $3 } NR % 2 == 0 { printf "time per access, %s, 10^6 to 10^5: %.2f\n", $1, $3 / before }' "$work/figures"

printf '\n%10s %10s %10s %10s\n' bytes statements ns/byte MiB
rm -f -- "$work/figures"
for kib in 64 256 1024; do
    file=$work/commented-$kib.f
    commented "$((kib * 1024))" >"$file"
    times=$((16384 / kib))
    bytes=$(wc -c <"$file")
    statements=$("$ped" show "$file" | awk 'substr($0, 6, 5) ~ /[0-9]/ { n++ } END { print n }')
    awk -v bytes="$bytes" -v statements="$statements" -v times="$times" \
        -v seconds="$(least_show '%U %S' "$file" "$times")" \
        -v no_seconds="$(least_show '%U %S' examples/panes/recurrence.f "$times")" \
        -v peak="$(least_show %M "$file" 1)" 'BEGIN {
            time = (seconds - no_seconds) * 1e9 / times / bytes
            printf "%10d %10d %10.2f %10.1f\n", bytes, statements, time, peak / 1024
        }' | tee -a "$work/figures"
done
awk '{ if (NR == 1 || $3 < least) least = $3; if ($3 > most) most = $3 }
    END { printf "greatest to least time per byte: %.2f\n", most / least }' "$work/figures"

# Of each nest the pairs of references are known from its form.
printf '\n%10s %10s %10s %12s %10s\n' nest statements pairs us/pair MiB
rm -f -- "$work/figures"
while read -r nest statements pairs times; do
    file=$work/$nest-$statements.f
    "${nest}_deep" "$statements" >"$file"
    awk -v nest="$nest" -v statements="$statements" -v pairs="$pairs" -v times="$times" \
        -v seconds="$(least_show '%U %S' "$file" "$times")" \
        -v no_seconds="$(least_show '%U %S' examples/panes/recurrence.f "$times")" \
        -v peak="$(least_show %M "$file" 1)" 'BEGIN {
            time = (seconds - no_seconds) * 1e6 / times / pairs
            printf "%10s %10d %10d %12.2f %10.1f\n", nest, statements, pairs, time, peak / 1024
        }' | tee -a "$work/figures"
done <<'END'
two 14 980 100
two 45 10125 20
two 100 50000 5
two 141 99405 2
two 200 200000 1
six 14 980 20
six 45 10125 2
six 141 99405 1
END
awk '$1 == "two" { if (!seen || $4 < least) least = $4; if ($4 > most) most = $4; seen = 1 }
    END { printf "greatest to least time per pair, two loops: %.2f\n", most / least }' "$work/figures"

printf '\n%16s %10s\n' program stack/KiB
for program in many_references deep_blocks; do
    "$program" >"$work/$program.f"
    "$ped" show "$work/$program.f" >"$work/shown" || head -n 3 -- "$work/shown" >&2
    printf '%16s %10d\n' "$program" "$(least_stack "$work/$program.f")"
done

# So many edits, each of which puts a line in its own place, given by its number; and behind one of them, so often a step back
# and forward.
edits() {
    awk -v n="$1" -v number="$2" -v line="$3" \
        'BEGIN { for (k = 0; k < n; k++) printf "replace %d %d\n%s\n.\n", number, number, line }'
}
moves() {
    edits 1 "$2" "$3"
    awk -v n="$1" 'BEGIN { for (k = 0; k < n; k++) printf "undo\nredo\n" }'
}

# A loop of 200 iterations over one assignment of so many operands, of which one is a reference.
operands() {
    awk -v n="$1" 'BEGIN {
        print "      INTEGER A(200)\n      DO 10 I = 1, 200"
        line = "      A(I) = I"
        for (k = 2; k <= n; k++) {
            if (length(line) > 70) { print line; line = "     &  " }
            line = line "+1"
        }
        print line "\n   10 CONTINUE\n      END"
    }'
}
printf 'races\n' >"$work/races"
printf 'run\n' >"$work/run"
: >"$work/nothing"
printf '\n%10s %18s %16s\n' operands 'races: ns/operand' 'run: ns/operand'
rm -f -- "$work/figures"
for count in 150 300 600; do
    file=$work/operands-$count.f
    operands "$count" >"$file"
    awk -v count="$count" \
        -v races="$(least_session '%U %S' "$file" "$work/races")" \
        -v run="$(least_session '%U %S' "$file" "$work/run")" \
        -v nothing="$(least_session '%U %S' "$file" "$work/nothing")" 'BEGIN {
            printf "%10d %18.0f %16.0f\n", count, (races - nothing) * 1e9 / 200 / count, (run - nothing) * 1e9 / 200 / count
        }' | tee -a "$work/figures"
done
awk 'NR == 1 { least = $2 } END { printf "races, time per operand, 600 to 150: %.2f\n", $2 / least }' "$work/figures"

# An edit of one statement in the nest, by which the pairs of its references alone are new; how many pairs the opening and an
# edit test; and what a change keeps.
line_of_two='      A(I,J) = A(I-1,J)+A(I,J-1)'
line_of_six='      A(I1+I2,I3+2*I4) = A(I1+I2-1,I3+I5)+A(I2+I6,I3+I4+1)'
tested() {
    { [ "$2" -eq 0 ] || edits "$2" "$3" "$4"; echo tested; } >"$work/tested"
    "$ped" session "$1" "$work/tested" | awk '$1 == "tested" { print $2 }'
}
printf '\n%10s %10s %10s %10s %12s %10s %12s %12s %14s\n' nest statements pairs 'of an edit' ms/opening ms/edit ratio us/move bytes/change
while read -r nest statements times steps; do
    file=$work/$nest-$statements.f
    "${nest}_deep" "$statements" >"$file"
    case $nest in
        two) number=4 line=$line_of_two ;;
        *) number=8 line=$line_of_six ;;
    esac
    edits 1 "$number" "$line" >"$work/one"
    edits "$((times + 1))" "$number" "$line" >"$work/edits"
    moves "$steps" "$number" "$line" >"$work/moves"
    awk -v nest="$nest" -v statements="$statements" -v times="$times" -v steps="$steps" \
        -v pairs="$(tested "$file" 0 "$number" "$line")" -v of_edit="$(tested "$file" 1 "$number" "$line")" \
        -v opening="$(least_session '%U %S' "$file" "$work/nothing")" \
        -v nothing="$(least_session '%U %S' examples/panes/recurrence.f "$work/nothing")" \
        -v one="$(least_session '%U %S' "$file" "$work/one")" \
        -v edits="$(least_session '%U %S' "$file" "$work/edits")" \
        -v moves="$(least_session '%U %S' "$file" "$work/moves")" \
        -v one_peak="$(least_session %M "$file" "$work/one")" -v peak="$(least_session %M "$file" "$work/edits")" 'BEGIN {
            edit = (edits - one) * 1e3 / times
            open_time = (opening - nothing) * 1e3
            printf "%10s %10d %10d %10d %12.2f %10.3f %12.3f %12.3f %14d\n", nest, statements, pairs, of_edit, open_time, edit,
                open_time ? edit / open_time : 0, (moves - one) * 1e6 / 2 / steps, (peak - one_peak) * 1024 / times
        }'
done <<'END'
two 14 1000 10000
two 45 200 1000
two 141 40 200
two 200 20 100
six 45 40 1000
END

# Generated programs: the time of a command for each statement, and what a change keeps for each.
printf '\n%10s %10s %10s %10s %10s %10s %14s %14s\n' generated statements pairs tested seconds MiB 'us/command' 'KiB/change'
for size in 30 100 200 300; do
    best=''
    for ((i = 0; i < runs; i++)); do
        command time -f '%U %S %M' -o "$work/figure" "$ped" generate "$size" >"$work/report"
        best=$(awk -v best="$best" '{ split(best, was); sum = $1 + $2; print (best == "" || sum < was[1]) ? sum " " $3 : best }' "$work/figure")
    done
    awk -v size="$size" -v best="$best" '
        { figure[$1] = $2 }
        END {
            split(best, cost)
            printf "%10d %10d %10d %10d %10.2f %10.1f %14.1f %14.2f\n", size, figure["statements"], figure["pairs"], figure["tested"], cost[1], cost[2] / 1024,
                cost[1] * 1e6 / 2 / size / figure["statements"], (cost[2] - 2048) / figure["accepted"] / figure["statements"]
        }' "$work/report"
done

# A program of 4,000 statements without references, whose changes keep its tree, its names and its text.
awk 'BEGIN { print "      INTEGER K"; for (k = 0; k < 4000; k++) print "      K = 1"; print "      END" }' >"$work/large.f"
edits 1 1 '      INTEGER K' >"$work/one"
edits 1001 1 '      INTEGER K' >"$work/edits"
awk -v one="$(least_session '%U %S' "$work/large.f" "$work/one")" -v edits="$(least_session '%U %S' "$work/large.f" "$work/edits")" \
    -v one_peak="$(least_session %M "$work/large.f" "$work/one")" -v peak="$(least_session %M "$work/large.f" "$work/edits")" \
    'BEGIN { printf "an edit of 4,000 statements: %.2f ms, and %.0f KiB kept for a change\n", edits - one, (peak - one_peak) / 1000 }'

# So many loops of 18 statements, of five kinds in turn: one that is parallel as it is, which is one try; one with a private
# scalar, three; one with a sum, three, since `privatise` is refused before `reduce`; one whose statements depend on each other
# in a ring, two; and one that `distribute` takes into two parallel loops, four. A further round tries `parallel` at the sums
# and the rings again. So five loops are 15 tries, and 7 of them are accepted.
for_auto() {
    awk -v n="$1" '
        function put(first, last, k) {
            for (k = first; k <= last; k++) printf "      A%d(I) = A%d(I)+B%d(I)\n", k, k, k
        }
        BEGIN {
            for (k = 1; k <= 18; k++) printf "      INTEGER A%d(99), B%d(99)\n", k, k
            for (k = 0; k < n; k++) {
                print "      DO I = 2, 99"
                if (k % 5 == 0) put(1, 18)
                if (k % 5 == 1) { printf "      K%d = B1(I)\n      A1(I) = K%d\n", k, k; put(3, 18) }
                if (k % 5 == 2) { put(1, 17); printf "      L%d = L%d+A1(I)\n", k, k }
                if (k % 5 == 3) for (j = 1; j <= 18; j++) printf "      A%d(I) = A%d(I%s)+1\n", j, j == 1 ? 18 : j - 1, j == 1 ? "-1" : ""
                if (k % 5 == 4) {
                    print "      IF (B1(I).GT.0) THEN"; put(1, 8); print "      END IF"
                    print "      IF (B2(I).GT.A1(I-1)) THEN"; put(9, 16); print "      END IF"
                }
                print "      END DO"
            }
            print "      END"
        }'
}
printf '\n%10s %10s %10s %10s %10s %10s %10s %10s %10s\n' loops statements pairs tries accepted left tested seconds MiB
printf 'auto\n' >"$work/auto"
# Beyond 192 loops the sums that a list is lowered to take the program past 4,000 statements, and other steps are taken.
for loops in 10 50 190; do
    for_auto "$loops" >"$work/auto.f"
    "$ped" session "$work/auto.f" "$work/auto" >"$work/report"
    printf 'source\n' >"$work/source"
    statements=$("$ped" session "$work/auto.f" "$work/source" | awk 'NR > 1 && substr($0, 6, 5) ~ /[0-9]/ { n++ } END { print n }')
    { echo tested; awk '/^\+ / { print substr($0, 3); print "tested" }' "$work/report"; } >"$work/steps"
    "$ped" session "$work/auto.f" "$work/steps" >"$work/told"
    awk -v loops="$loops" -v statements="$statements" -v told="$work/told" \
        -v seconds="$(least_session '%U %S' "$work/auto.f" "$work/auto")" \
        -v nothing="$(least_session '%U %S' "$work/auto.f" "$work/nothing")" \
        -v peak="$(least_session %M "$work/auto.f" "$work/auto")" '
        BEGIN { while ((getline row < told) > 0) if (split(row, words) == 2 && words[1] == "tested") { if (pairs == "") pairs = words[2]; else tested += words[2] } }
        /^\+ / { accepted++ }
        /^left / { left++ }
        END {
            if (accepted != loops / 5 * 7 || left != loops / 5 * 2) print "bench: auto has taken other steps than it should" >"/dev/stderr"
            printf "%10d %10d %10d %10d %10d %10d %10d %10.2f %10.1f\n", loops, statements, pairs, loops * 3, accepted, left, tested, seconds - nothing, peak / 1024
        }' "$work/report"
done

# Files of program units.
printf '\n'
tools/bench-units.sh --program "$ped" --runs "$runs"

# The same work by other programs, where they are installed; and what one PRIVATE copy and one cell of `races` cost.
printf '\n'
tools/anchors.sh --program "$ped"
