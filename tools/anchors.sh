#!/usr/bin/env bash
# Compares ped with programs that do the same or similar work, by instructions: two small C programs of tools/anchors/, LLVM's dependence
# analysis (opt -passes='print<da>'), and gfortran as it looks for parallel loops. Prints a table. Instructions are those of
# `valgrind --tool=callgrind`; of each figure the same call on less work is taken away. It is run by hand.
#
#   tools/anchors.sh [--program PROGRAM]     the program is the proved one of the present sources, or the one that is named
#
# It needs valgrind, gcc, clang and opt, gfortran, and GNU time. CLANG and OPT name others than the newest `clang-N` and `opt-N`.
set -eu
cd -- "$(dirname -- "${BASH_SOURCE[0]}")/.."
# shellcheck source=tools/program.sh
. "$PWD/tools/program.sh"

if [ "${1-}" = --program ]; then
    program=$(readlink -f -- "$2")
else
    program=$(program_of "$(sources_sum)")
fi
[ -x "$program" ] || { echo 'anchors: the proved program is not built; .ci/run or ./prove builds it' >&2; exit 1; }
# newest NAME: the program of the greatest version, of those that Debian installs as NAME-VERSION.
newest() {
    compgen -c "$1-" | sed -n "s/^$1-\([0-9]*\)$/\1 &/p" | sort -un | sed -n '$s/.* //p'
}
clang=${CLANG-$(newest clang)} opt=${OPT-$(newest opt)}
work=$(mktemp -d)
trap 'rm -rf -- "$work"' EXIT
gcc -O2 -o "$work/panes" tools/anchors/panes.c
gcc -O2 -o "$work/runs" tools/anchors/runs.c
cd -- "$work"

# count COMMAND ..: the instructions of a call.
count() {
    valgrind --tool=callgrind --callgrind-out-file=/dev/null "$@" 2>&1 >/dev/null | sed -n 's/.*Collected : \([0-9]*\).*/\1/p'
}
# each MORE LESS UNITS: the instructions for each of so many units of work.
each() {
    echo $((($1 - $2) / $3))
}
# nest N: two loops around N statements; deep N: six loops.
nest() {
    printf '      INTEGER A(9,9)\n      DO I=2,9\n      DO J=2,9\n'
    for _ in $(seq "$1"); do printf '      A(I,J)=A(I-1,J)+A(I,J-1)\n'; done
    printf '      END DO\n      END DO\n      END\n'
}
deep() {
    printf '      INTEGER A(99,99)\n'
    for name in I J K L M N; do printf '      DO %s=1,9\n' "$name"; done
    for _ in $(seq "$1"); do printf '      A(I+J,I+K)=A(I+J-1,K+I)+A(L+M,N)\n'; done
    for _ in I J K L M N; do printf '      END DO\n'; done
    printf '      END\n'
}
# seven N: six loops around N statements whose references have seven subscripts each.
seven() {
    printf '      INTEGER A(7,7,7,7,7,7,7)\n'
    for name in I J K L M N; do printf '      DO %s=1,3\n' "$name"; done
    for _ in $(seq "$1"); do printf '      A(I+J,J+K,K+L,L+M,M+N,N+I,I+L)=A(J+I,K+J,L+K,M+L,N+M,I+N,L+I)\n'; done
    for _ in I J K L M N; do printf '      END DO\n'; done
    printf '      END\n'
}
nest_in_c() {
    printf 'int a[10][10];\nvoid nest(void) {\n  for (int i = 2; i <= 9; i++)\n    for (int j = 2; j <= 9; j++) {\n'
    for _ in $(seq "$1"); do printf '      a[i][j] = a[i-1][j] + a[i][j-1];\n'; done
    printf '    }\n}\n'
}
deep_in_c() {
    printf 'int a[100][100];\nvoid nest(void) {\n'
    for name in i j k l m n; do printf '  for (int %s = 1; %s <= 9; %s++)\n' $name $name $name; done
    printf '  {\n'
    for _ in $(seq "$1"); do printf '      a[i+j][i+k] = a[i+j-1][k+i] + a[l+m][n];\n'; done
    printf '  }\n}\n'
}
# shown MAKER SIZE: ped's instructions to show it.
shown() {
    "$1" "$2" >"$1$2.f"
    count "$program" show "$1$2.f"
}
# analysed MAKER SIZE: LLVM's.
analysed() {
    "$1_in_c" "$2" >"$1$2.c"
    "$clang" -O1 -Xclang -disable-llvm-passes -S -emit-llvm "$1$2.c" -o "$1$2.ll"
    "$opt" -S -passes='mem2reg,instcombine,loop-simplify,loop-rotate,indvars' "$1$2.ll" -o "$1$2.opt.ll"
    count "$opt" -disable-output -passes='print<da>' "$1$2.opt.ll"
}
# compiled MAKER SIZE: gfortran's, as it compiles.
compiled() {
    count "$(gfortran -print-prog-name=f951)" "$1$2.f" -quiet -O2 -ftree-parallelize-loops=4 -o /dev/null
}
# ran KIND STATEMENT: ped's instructions of an iteration.
ran() {
    for size in 1000 6000; do
        printf '      INTEGER A(9), B(5,5)\n      K=0\n      A(1)=0\n      B(1,1)=0\n      DO I=1,%s\n      %s\n      END DO\n      END\n' $size "$2" >"run$size.f"
    done
    printf 'run\n' >script
    each "$(count "$program" session run6000.f script)" "$(count "$program" session run1000.f script)" 5000
}
# Programs of PARALLEL DOs: N iterations that assign a PRIVATE scalar, and six in one another that assign N^6 elements.
private() {
    printf '      INTEGER A(9)\n      PARALLEL DO 10 I=1,%s\n      PRIVATE K\n      K=I\n   10 CONTINUE\n      END\n' "$1"
}
cells() {
    printf '      INTEGER A(7,7,7,7,7,7)\n'
    for name in I J K L M N; do printf '      PARALLEL DO %s=1,%s\n' "$name" "$1"; done
    printf '      A(I,J,K,L,M,N)=I\n'
    for _ in I J K L M N; do printf '      END DO\n'; done
    printf '      END\n'
}
# session COMMAND MAKER SIZE: the instructions and the KiB that a session of this command takes.
session_of() {
    "$2" "$3" >"$2$3.f"
    printf '%s\n' "$1" >script
    printf '%s %s\n' "$(count "$program" session "$2$3.f" script)" \
        "$(command time -f %M "$program" session "$2$3.f" script 2>&1 >/dev/null)"
}
# grown COMMAND MAKER SIZE UNITS SIZE UNITS: instructions and bytes for each unit that the second program has more.
grown() {
    local instructions kib more_instructions more_kib
    read -r instructions kib <<<"$(session_of "$1" "$2" "$3")"
    read -r more_instructions more_kib <<<"$(session_of "$1" "$2" "$5")"
    printf '%s and %s bytes\n' "$(each "$more_instructions" "$instructions" "$(($6 - $4))")" \
        "$(((more_kib - kib) * 1024 / ($6 - $4)))"
}
walked() {
    each "$(count ./runs "$1" 6000)" "$(count ./runs "$1" 1000)" 5000
}

nest 20 >nest20.f
cmp -s <("$program" show nest20.f) <(./panes 20) || { echo 'anchors: the C program writes other panes' >&2; exit 1; }
# n statements have 5 n^2 pairs.
pairs() { echo $((5 * ($1 * $1 - $2 * $2))); }
printf '| Instructions for each | ped | C program | LLVM | gfortran |\n|---|---|---|---|---|\n'
printf '| pair of references, two loops | %s | %s | %s | %s |\n' \
    "$(each "$(shown nest 40)" "$(shown nest 20)" "$(pairs 40 20)")" \
    "$(each "$(count ./panes 40)" "$(count ./panes 20)" "$(pairs 40 20)")" \
    "$(each "$(analysed nest 16)" "$(analysed nest 8)" "$(pairs 16 8)")" \
    "$(each "$(compiled nest 40)" "$(compiled nest 20)" "$(pairs 40 20)")"
printf '| pair of references, six loops | %s | | %s | |\n' \
    "$(each "$(shown deep 4)" "$(shown deep 2)" "$(pairs 4 2)")" \
    "$(each "$(analysed deep 8)" "$(analysed deep 4)" "$(pairs 8 4)")"
printf '| pair of references, six loops, seven subscripts | %s | | | |\n' \
    "$(each "$(shown seven 8)" "$(shown seven 4)" "$((3 * (8 * 8 - 4 * 4)))")"
printf '| assignment to a scalar | %s | %s | | |\n' "$(ran scalar 'K=K+I-I+1')" "$(walked scalar)"
printf '| assignment to an element | %s | %s | | |\n' "$(ran element 'A(1)=A(1)+I-I+1')" "$(walked element)"
printf '| assignment with two subscripts | %s | %s | | |\n' "$(ran two 'B(1,1)=B(1,1)+A(1)')" "$(walked two)"
printf '| iteration that assigns a PRIVATE scalar (run 0) | %s | | | |\n' "$(grown 'run 0' private 1000 1000 100000 100000)"
printf '| cell that six PARALLEL DOs assign (races) | %s | | | |\n' "$(grown races cells 4 4096 7 117649)"
"$opt" --version | sed -n 's/.*LLVM version /LLVM /p'
gfortran --version | sed -n 1p
