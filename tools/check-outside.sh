#!/usr/bin/env bash
# Checks what ped does where the machine gives little: standard output that is closed, full, gone or slow; words that name
# folders, devices, pipes, or files that may not be read; names and texts that are no UTF-8; 20 MB of memory; 512 KiB of stack.
#
#   tools/check-outside.sh [--program PROGRAM]
#
# The program is the one that .ci/run or ./prove has proved and built from the present sources; nothing is proved or built here.
# The last line counts. The status is 0 only where all is as wanted.
set -eu
export LC_ALL=C
top=$(cd -- "$(dirname -- "${BASH_SOURCE[0]}")/.." && pwd)

stop() {
    printf 'outside: none was run: %s\n' "$1"
    exit 1
}

if [ "${1-}" = --program ]; then
    [ $# -eq 2 ] || stop '--program wants a file'
    program=$(readlink -f -- "$2")
else
    # shellcheck source=tools/program.sh
    . "$top/tools/program.sh"
    program=$(program_of "$(sources_sum)")
fi
if ! [ -f "$program" ] || ! [ -x "$program" ]; then
    stop 'the proved program is not built; .ci/run or ./prove builds it'
fi

work=$(mktemp -d)
trap 'rm -rf -- "$work"' EXIT
chmod 755 -- "$work"
cp -- "$program" "$work/ped"
cd -- "$work"

# ---- Programs, scripts and what is wanted

printf '      K=1\n      END\n' >small.f
printf 'source 2\n    1    1       K = 1\n    2            END\ndependences 0\n' >small.pane
# Its pane has some 130 KB, more than a pipe holds.
{ yes 'C a remark' || true; } | head -n 6000 >long.f
printf '      END\n' >>long.f
{
    printf 'source 6001\n'
    awk 'BEGIN { for (n = 1; n <= 6000; n++) printf "%5d      C a remark\n", n }'
    printf ' 6001            END\ndependences 0\n'
} >long.pane
printf '      DO I = 1, 2\n        K = 1\n      END DO\n      END\n' >loop.f
printf 'run\nprint\n' >script
# 200,000 pairs of references take more memory than there is here.
awk 'BEGIN {
    print "      INTEGER A(100,100)"
    print "      DO I = 2, 100"
    print "      DO J = 2, 100"
    for (k = 0; k < 200; k++) print "      A(I,J) = A(I-1,J)+A(I,J-1)"
    print "      END DO"
    print "      END DO"
    print "      END"
}' >pairs.f
printf 'usage: ped show PROGRAM | session PROGRAM SCRIPT [--data FILE] | generate N\n' >usage
: >nothing

count=0
failed=0

# The status and the output are as wanted: the output is this file, or with `front` a front of it, and standard error is empty.
wants() {
    local name=$1 status=$2 how=$3 file=$4 same
    count=$((count + 1))
    if [ "$how" = front ]; then
        same=$(head -c "$(wc -c <got)" -- "$file" | cmp -s - got && echo yes || echo no)
    else
        same=$(cmp -s -- "$file" got && echo yes || echo no)
    fi
    if [ "$got" -ne "$status" ] || [ "$same" = no ] || [ -s said ]; then
        printf 'outside: %s: status %s, wanted %s; output as wanted: %s\n' "$name" "$got" "$status" "$same"
        head -c 300 -- got said
        failed=$((failed + 1))
    fi
}

# Runs a command, keeps its output and messages, and its status in `got`. One that doesn't end is stopped.
call() {
    got=0
    timeout -k 1 20 "$@" </dev/null >got 2>said || got=$?
}

cannot_read() {
    printf 'ped: cannot read %s\n' "$1" >wanted
}

# ---- Standard output

call ./ped show long.f
wants 'a pane of 130 KB into a file' 0 whole long.pane

got=0
: >got
timeout 20 ./ped show long.f </dev/null >&- 2>said || got=$?
wants 'output that is closed' 4 whole nothing

got=0
timeout 20 ./ped show long.f </dev/null >/dev/full 2>said || got=$?
wants 'output that is full' 4 whole nothing

# The reader is gone before the first write.
mkfifo gone
exec 7<>gone
exec 8>gone 7<&-
got=0
timeout 20 ./ped show long.f </dev/null >&8 2>said || got=$?
exec 8>&-
wants 'a reader that is gone' 4 whole nothing

# A reader that begins late and takes a byte at a time at first.
{
    got=0
    timeout 20 ./ped show long.f </dev/null 2>said || got=$?
    printf '%s\n' "$got" >status
} | {
    sleep 0.5
    dd bs=1 count=1000 2>/dev/null
    cat
} >got
got=$(cat status)
wants 'a reader that is slow' 0 whole long.pane

# A pipe that doesn't wait: what fits into it is taken.
mkfifo short
exec 7<>short
got=0
timeout 20 python3 -c 'import os, sys; os.set_blocking(1, False); os.execv(sys.argv[1], sys.argv[1:])' \
    ./ped show long.f </dev/null >&7 2>said || got=$?
# The bytes that are in it.
python3 -c 'import os
os.set_blocking(7, False)
while True:
    try:
        os.write(1, os.read(7, 65536))
    except BlockingIOError:
        break' >taken
exec 7<&-
cp taken got
wants 'output that would have to wait' 4 front long.pane

# Where files may have 8 KiB.
got=0
(
    trap '' XFSZ
    ulimit -f 8
    timeout 20 ./ped show long.f </dev/null >got 2>said
) || got=$?
wants 'a file that may not grow' 4 front long.pane

# ---- Words

mkdir folder
mkfifo pipe
ln -s round round
long_name=$(printf 'x%.0s' {1..5000})
cp small.f closed.f
chmod 0 closed.f
for name in folder /proc/self/mem missing round small.f/ "$long_name" $'two\nlines' ''; do
    cannot_read "$name"
    call ./ped show "$name"
    wants "the file ${name:0:20}" 3 whole wanted
    call ./ped session small.f "$name"
    wants "the script ${name:0:20}" 3 whole wanted
    call ./ped session small.f script --data "$name"
    wants "the data ${name:0:20}" 3 whole wanted
done

# A file that may not be read; the superuser may, so somebody else asks.
cannot_read closed.f
call python3 -c 'import os, sys
if os.getuid() == 0:
    os.setgroups([])
    os.setgid(65534)
    os.setuid(65534)
os.execv(sys.argv[1], sys.argv[1:])' ./ped show closed.f
wants 'a file that may not be read' 3 whole wanted

printf 'ped: refused 9 OpenBlock at 0\n' >wanted
call ./ped show /dev/null
wants 'a device without bytes' 5 whole wanted
for name in /dev/zero /dev/full; do
    printf 'ped: %s is longer than 1048576 bytes\n' "$name" >wanted
    call ./ped show "$name"
    wants "the program $name" 7 whole wanted
    call ./ped session small.f "$name"
    wants "the script $name" 7 whole wanted
    printf 'ped: %s is longer than 4194304 bytes\n' "$name" >wanted
    call ./ped session small.f script --data "$name"
    wants "the data $name" 7 whole wanted
done

cat small.f >pipe &
call ./ped show pipe
wants 'a pipe' 0 whole small.pane
{
    head -c 8 small.f
    sleep 0.3
    tail -c +9 small.f
} >pipe &
call ./ped show pipe
wants 'a pipe that is slow' 0 whole small.pane
mapfile -t numbers < <(seq 5000)
call ./ped "${numbers[@]}"
wants 'five thousand words' 2 whole usage
call ./ped session small.f script --data "${numbers[@]}"
wants 'five thousand words too many' 2 whole usage

call ./ped show $'\xff.f'
wants 'a name that is no UTF-8' 2 whole usage
call ./ped session small.f script --data=$'\xc3'
wants 'data with such a name' 2 whole usage

# ---- Bytes

printf 'C \xff\xc3 \n      END\n' >bytes.f
printf 'source 2\n    1      C \xff\xc3\n    2            END\ndependences 0\n' >wanted
call ./ped show bytes.f
wants 'a remark that is no UTF-8' 0 whole wanted
printf 'ped: refused 5 BadCharacter at 1\n' >wanted
for bytes in '\xff' '\0' '\x80' '\x1b'; do
    printf '      PRINT *, '\''%b'\''\n      END\n' "$bytes" >bytes.f
    call ./ped show bytes.f
    wants "a constant with the byte $bytes" 5 whole wanted
done
printf '1: refused BadCommand\n2: refused BadCommand\n3: refused BadCommand\n' >wanted
printf '\xff\nundo\0\nrun \xc2\xa01\n' >bytes.script
call ./ped session small.f bytes.script
wants 'commands that are no UTF-8' 1 whole wanted
printf '      READ *, K\n      END\n' >reads.f
printf 'run\n' >run
printf 'fault 5 at 1\n' >wanted
for bytes in '\xff' '\0' '7\xff' ''; do
    printf '%b\n' "$bytes" >bytes.data
    call ./ped session reads.f run --data bytes.data
    wants "data with the bytes $bytes" 0 whole wanted
done

# ---- Memory

# Within 20 MB there is an answer, or want of memory with a front of the answer.
within_20_mb() {
    got=0
    (
        ulimit -v 20480
        call "$@"
        exit "$got"
    ) || got=$?
}

within_20_mb ./ped show small.f
wants 'a small program in 20 MB' 0 whole small.pane
within_20_mb ./ped show long.f
wants '6,000 remarks in 20 MB' 0 whole long.pane
call ./ped show pairs.f
cp got wanted
within_20_mb ./ped show pairs.f
wants '200,000 pairs in 20 MB' 6 front wanted
printf '      INTEGER A(4)\n      DO I = 1, 2\n        A(I) = 1\n      END DO\n      END\n' >turned.f
{ yes 'reverse 1' || true; } | head -n 100000 >many
seq -f '%.0f: ok' 100000 >wanted
within_20_mb ./ped session turned.f many
wants 'a history of 100,000 changes in 20 MB' 6 front wanted

# ---- Stack

# A hundred blocks in one another, and a session that skews a nest, turns it and runs it.
{
    seq -f '      IF (K.EQ.%.0f) THEN' 94
    seq -f '      DO I%.0f = 1, 2' 6
    printf '      K = (1)\n'
    for ((n = 0; n < 6; n++)); do printf '      END DO\n'; done
    for ((n = 0; n < 94; n++)); do printf '      END IF\n'; done
    printf '      END\n'
} >blocks.f
cat >wavefront.f <<'END_OF_PROGRAM'
      INTEGER A(3,3)
      SAVE A
      DO 20 I=1,3
      DO 10 J=1,3
   10 A(I,J)=1
   20 CONTINUE
      DO 40 I=2,3
      DO 30 J=2,3
   30 A(I,J)=A(I-1,J)+A(I,J-1)
   40 CONTINUE
      END
END_OF_PROGRAM
printf '%s\n' 'skew 4 1' 'interchange 4' 'parallel 5' 'run 1 1 1' undo undo undo >wavefront.script
printf '1: ok\n2: ok\n3: ok\nended\nlive A 1 1 1 1 2 3 1 3 6\n5: ok\n6: ok\n7: ok\n' >wavefront.answer
printf 'tested 1\n' >wanted
printf 'tested\n' >tested

within_512_kib() {
    got=0
    (
        ulimit -s 512
        call "$@"
        exit "$got"
    ) || got=$?
}

within_512_kib ./ped session blocks.f tested
wants 'a hundred blocks with 512 KiB of stack' 0 whole wanted
within_512_kib ./ped session wavefront.f wavefront.script
wants 'a session with 512 KiB of stack' 0 whole wavefront.answer

printf 'outside: %d passed, %d failed\n' $((count - failed)) "$failed"
[ "$count" -gt 0 ] && [ "$failed" -eq 0 ]
