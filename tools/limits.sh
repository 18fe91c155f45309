#!/usr/bin/env bash
# Goes to each limit of ped from both sides, and says beside each answer how long it took and how much memory: the sizes of files,
# statements, pairs, blocks and elements; what a change of a session keeps, by histories of up to 95,000 changes; and with which
# stack a program is shown. It is no part of the gate, and needs GNU time and awk. docs/HOSTILE.md has the figures.
#
#   tools/limits.sh [--program PROGRAM] [PART ..]      the parts are sizes, histories, growing, and stack; all where none is given
#
# The program is the one that .ci/run or ./prove has proved and built from the present sources; nothing is proved or built here.
# The tables are those of the page. The status is 0 only where each answer is as wanted.
set -eu
export LC_ALL=C
top=$(cd -- "$(dirname -- "${BASH_SOURCE[0]}")/.." && pwd)

stop() {
    printf 'limits: none was tried: %s\n' "$1"
    exit 1
}

if [ "${1-}" = --program ]; then
    [ $# -ge 2 ] || stop '--program wants a file'
    program=$(readlink -f -- "$2")
    shift 2
else
    # shellcheck source=tools/program.sh
    . "$top/tools/program.sh"
    program=$(program_of "$(sources_sum)")
fi
if ! [ -f "$program" ] || ! [ -x "$program" ]; then
    stop 'the proved program is not built; .ci/run or ./prove builds it'
fi
[ $# -gt 0 ] || set -- sizes histories growing stack

work=$(mktemp -d)
trap 'rm -rf -- "$work"' EXIT
cd -- "$work"
failed=0

# Runs the program on words. Sets `status`, `seconds` of processor time and `kib`, the most memory; its output is in `got`.
run() {
    status=0
    command time -q -f '%U %S %M' -o figures "$program" "$@" </dev/null >got 2>said || status=$?
    read -r seconds kib < <(awk 'END { printf "%.2f %d\n", $1 + $2, $3 }' figures)
}

# A row of a table: what is tried, and how it is answered. Wanted are the status and the last line.
row() {
    local what=$1 wanted=$2 last=$3
    shift 3
    run "$@"
    if [ "$status" -ne "$wanted" ] || [ "$(tail -n 1 got)" != "$last" ] || [ -s said ]; then
        printf 'limits: %s: status %s, and %s is wanted; the last lines are\n' "$what" "$status" "$wanted" >&2
        tail -n 2 got said >&2
        failed=1
    fi
    awk -v what="$what" -v status="$status" -v last="$(tail -n 1 got | head -c 60)" -v seconds="$seconds" -v kib="$kib" \
        'BEGIN { printf "| %s | %s, `%s` | %s | %.1f |\n", what, status, last, seconds, kib / 1024 }'
}

# So many lines, all the same.
lines() {
    { yes "$2" || true; } | head -n "$1"
}

# ---- Sizes

# A text of so many bytes with this at its front, and remarks of 70 columns behind it.
filled() {
    awk -v size="$1" -v front="$2" 'BEGIN {
        line = "C" sprintf("%69s", "a remark") "\n"
        gsub(/@/, "\n", front)
        left = size - length(front)
        printf "%s", front
        for (; left > length(line); left -= length(line)) printf "%s", line
        printf "%s", substr(line, 1, left - 1) "\n"
    }'
}

# Two loops in one another with so many statements of two reads and a write of one array.
pairs() {
    printf '      INTEGER A(100,100)\n      DO I = 2, 100\n      DO J = 2, 100\n'
    lines "$1" '      A(I,J) = A(I-1,J)+A(I,J-1)'
    printf '      END DO\n      END DO\n      END\n'
}

# So many IFs in one another, with six loops in the innermost.
blocks() {
    seq -f '      IF (K.EQ.%.0f) THEN' "$1"
    seq -f '      DO I%.0f = 1, 2' 6
    printf '      K = 1\n'
    lines 6 '      END DO'
    lines "$1" '      END IF'
    printf '      END\n'
}

# Eight arrays of 2^20 elements, further declarations, and a run that assigns an element of each.
arrays() {
    seq -f '      INTEGER IA%.0f(1048576)' 8
    printf '%s' "$1"
    seq -f '      IA%.0f(1048576) = 1' 8
    printf '      END\n'
}

sizes() {
    printf '| What | Answer | Seconds | MiB |\n|---|---|---|---|\n'
    filled 1048576 '      END@' >at.f
    filled 1048577 '      END@' >over.f
    row 'a program of 1,048,576 bytes' 0 'dependences 0' show at.f
    row 'a byte more' 7 'ped: over.f is longer than 1048576 bytes' show over.f
    printf '      K = 1\n      END\n' >small.f
    { lines 149796 tested; lines 4 ''; } >at.script
    { cat at.script; lines 1 ''; } >over.script
    row 'a script of 1,048,576 bytes, of 149,796 commands' 0 'tested 0' session small.f at.script
    row 'a byte more' 7 'ped: over.script is longer than 1048576 bytes' session small.f over.script
    printf '      INTEGER S\n      S = 0\n      DO I = 1, 2097152\n        READ *, K\n        S = S+K\n      END DO\n      PRINT *, S\n      END\n' >reads.f
    printf 'run\n' >run
    lines 2097152 1 >at.data
    { cat at.data; printf 1; } >over.data
    row 'data of 4,194,304 bytes, two million values that are read' 0 ended session reads.f run --data at.data
    row 'a byte more' 7 'ped: over.data is longer than 4194304 bytes' session reads.f run --data over.data
    { lines 4000 '      K = 1'; printf '      END\n'; } >at.f
    { lines 4001 '      K = 1'; printf '      END\n'; } >over.f
    row '4,000 statements' 0 'dependences 0' show at.f
    row 'one more' 5 'ped: refused 13 Limit at 4001' show over.f
    pairs 200 >at.f
    pairs 201 >over.f
    printf 'tested\n' >tested
    row '200,000 pairs of references' 0 'tested 200000' session at.f tested
    row 'a statement more' 5 'ped: refused 19 Limit at 204' session over.f tested
    blocks 94 >at.f
    blocks 95 >over.f
    row 'a hundred blocks in one another' 0 'tested 1' session at.f tested
    row 'one more' 5 'ped: refused 13 Limit at 101' show over.f
    arrays '' >at.f
    arrays $'      INTEGER IA9(1)\n' >over.f
    row 'a run with 2^23 elements' 0 ended session at.f run
    row 'one more' 5 'ped: refused 19 Limit at 9' session over.f run
    printf '      INTEGER A(1048576)\n      SAVE A\n      END\n' >at.f
    printf '      INTEGER A(1048577)\n      SAVE A\n      END\n' >over.f
    run session at.f run
    awk 'BEGIN { printf "live A"; for (n = 0; n < 1048576; n++) printf " ?"; print "" }' | cmp -s - <(tail -n 1 got) || failed=1
    row 'a run with a live array of 2^20' 0 "$(tail -n 1 got)" session at.f run
    row 'one more' 5 'ped: refused 19 Limit at 1' session over.f run
}

# ---- Histories

small() {
    printf '      INTEGER A(10)\n      DO I = 1, 10\n        A(I) = I\n      END DO\n      END\n'
}

# Of these commands so many in turn.
turns() {
    local count=$1
    shift
    awk -v count="$count" 'BEGIN { for (n = 1; n <= count; n++) print ARGV[1 + n % (ARGC - 1)]; exit }' "$@" | sed 's/@/\n/g'
}

# A row: what changes, and how long it takes and what it keeps, of so many changes less a tenth of them.
kept() {
    local what=$1 count=$2 tenth few many
    shift 2
    tenth=$((count / 10))
    small >program.f
    turns "$tenth" "$@" >script
    run session program.f script
    few="$seconds $kib"
    turns "$count" "$@" >script
    run session program.f script
    many="$seconds $kib"
    # Each change is accepted, so the last is said of the last command.
    if [ "$status" -ne 0 ] || [ "$(grep -c ': ok$' got)" -ne "$count" ]; then
        printf 'limits: %s: status %s\n' "$what" "$status" >&2
        failed=1
    fi
    awk -v what="$what" -v few="$few" -v many="$many" -v changes="$count" -v fewer="$tenth" 'BEGIN {
        split(few, a); split(many, b)
        printf "| %s | %d | %s | %.1f | %.0f | %.2f |\n", what, changes, b[1], b[2] / 1024, (b[1] - a[1]) / (changes - fewer) * 1e6, (b[2] - a[2]) / (changes - fewer)
    }'
}

histories() {
    printf '| Of a program of five lines | Changes | Seconds | MiB | Microseconds a change | KiB that a change keeps |\n|---|---|---|---|---|---|\n'
    kept 'reverse' 10000 'reverse 1'
    kept 'replace of a statement' 10000 'replace 3 3@      A(I) = I@.'
    kept 'insert of a remark, and delete of it' 10000 'delete 1 1' 'insert 0@C@.'
    kept 'insert of nothing, a script of a MiB' 95325 'insert 0@.'
    kept 'reverse, a script of a MiB' 104857 'reverse 1'
    printf '\n| Behind 10,000 changes | Seconds | MiB | Microseconds a step |\n|---|---|---|---|\n'
    moved
}

# A row: 10,000 changes that are taken back and done again.
moved() {
    local few
    small >program.f
    turns 10000 'reverse 1' >script
    run session program.f script
    few=$seconds
    lines 10000 undo >>script
    lines 10000 redo >>script
    run session program.f script
    awk -v few="$few" -v many="$seconds" -v kib="$kib" \
        'BEGIN { printf "| 10,000 steps back and 10,000 forward | %s | %.1f | %.2f |\n", many, kib / 1024, (many - few) / 20000 * 1e6 }'
    [ "$status" -eq 0 ] || failed=1
}

# A row for a program that grows by so many remarks, one by one.
grown() {
    small >program.f
    turns "$1" 'insert 0@C a remark of forty columns, no more@.' >script
    run session program.f script
    awk -v count="$1" -v seconds="$seconds" -v kib="$kib" \
        'BEGIN { printf "| %d | %s | %.1f | %.1f |\n", count, seconds, kib / 1024, kib / count }'
    [ "$status" -eq 0 ] || failed=1
}

# A row for a program of so many assignments, of which one is replaced twenty and two hundred times.
sized() {
    local few
    { printf '      INTEGER A(10)\n'; lines "$1" '      A(1) = A(2)+K'; printf '      END\n'; } >program.f
    turns 20 'replace 2 2@      A(1) = A(2)+L@.' >script
    run session program.f script
    few="$seconds $kib"
    turns 200 'replace 2 2@      A(1) = A(2)+L@.' >script
    run session program.f script
    awk -v count="$1" -v few="$few" -v many="$seconds $kib" 'BEGIN {
        split(few, a); split(many, b)
        printf "| %d | %.2f | %.1f | %.3f |\n", count, (b[1] - a[1]) / 180 * 1000, (b[2] - a[2]) / 180, (b[2] - a[2]) / 180 / count
    }'
    [ "$status" -eq 0 ] || failed=1
}

growing() {
    local count
    printf '| Remarks put in one by one | Seconds | MiB | KiB for each |\n|---|---|---|---|\n'
    for count in 250 500 1000 2000 4000; do grown "$count"; done
    printf '\n| Statements | Milliseconds an edit of one | KiB that it keeps | KiB for a statement |\n|---|---|---|---|\n'
    for count in 10 100 1000 3999; do sized "$count"; done
}

# ---- Stack

# So many parentheses in one another, within so many IFs.
parentheses() {
    seq -f '      IF (K.EQ.%.0f) THEN' "$2"
    awk -v count="$1" 'BEGIN {
        text = "K="
        for (n = 0; n < count; n++) text = text "("
        text = text "1"
        for (n = 0; n < count; n++) text = text ")"
        for (at = 1; at <= length(text); at += 66) print (at == 1 ? "      " : "     &") substr(text, at, 66)
    }'
    lines "$2" '      END IF'
    printf '      END\n'
}

# Whether a program is shown with a stack of so many KiB.
shown_with() {
    (
        ulimit -s "$1"
        ulimit -c 0
        "$program" show "$2" >got 2>/dev/null
    )
}

# A row: the least stack with which a program is shown, in steps of 16 KiB.
least() {
    local low=0 high=512 middle
    while ((high - low > 1)); do
        middle=$(((low + high) / 2))
        if shown_with $((middle * 16)) "$2"; then high=$middle; else low=$middle; fi
    done
    printf '| %s | %d |\n' "$1" $((high * 16))
}

stack() {
    printf '| Program | KiB of stack |\n|---|---|\n'
    small >program.f
    least 'five lines' program.f
    { lines 4000 '      K = 1'; printf '      END\n'; } >program.f
    least '4,000 statements' program.f
    blocks 94 >program.f
    least 'a hundred blocks in one another' program.f
    for count in 100 200 400 640; do
        parentheses "$count" 0 >program.f
        least "$count parentheses in one another" program.f
    done
    parentheses 640 99 >program.f
    least '640 parentheses in one another within 99 blocks' program.f
}

first=yes
for part in "$@"; do
    [ -n "$first" ] || printf '\n'
    first=
    case $part in
        sizes) sizes ;;
        histories) histories ;;
        growing) growing ;;
        stack) stack ;;
        *) stop "there is no part $part" ;;
    esac
done
exit "$failed"
