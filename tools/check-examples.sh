#!/usr/bin/env bash
# Runs the examples, and compares what the program writes with the stored output, byte for byte, and its
# exit status with the one that is wanted.
#
# An example is a file examples/FOLDER/NAME.out, the output that is wanted; examples/README.md lists them. The program is called at
# the repository's top with the words of NAME.args, one a line. Where there is no such file, they are `session NAME.f NAME.script` where
# there is a script, with `--data NAME.data` after them where there are data, and else `show NAME.f`. NAME.status has the status that is
# wanted; it is 0 where there is no such file. The program is the one that .ci/run or ./prove has proved and built from the present
# sources; nothing is proved or built here. The Fortran files of examples/real/ are those of other checks.
set -eu
cd -- "$(dirname -- "${BASH_SOURCE[0]}")/.."

work=$(mktemp -d)
trap 'rm -rf -- "$work"' EXIT
passed=0
failed=0

differs() {
    printf 'examples: %s: %s\n' "$1" "$2"
    failed=$((failed + 1))
}

# ./ped would start a program that isn't proved.
# shellcheck source=tools/program.sh
. "$PWD/tools/program.sh"
if ! is_program "$(program_of "$(sources_sum)")"; then
    printf 'examples: none was run, since the proved program is not built; .ci/run or ./prove builds it\n'
    exit 1
fi

# Without words the program answers how it is called, with status 2.
status=0
./ped >"$work/usage" || status=$?
if [ "$status" -ne 2 ]; then
    printf 'examples: none was run, since the program cannot be started (status %s)\n' "$status"
    exit 1
fi

for program in examples/{panes,steps,sessions,book}/*.f; do
    [ -f "${program%.f}.out" ] || differs "$program" "its output isn't stored beside it"
done
for file in examples/{panes,steps,sessions,book}/*.{script,data}; do
    [ -e "$file" ] || continue
    [ -f "${file%.*}.f" ] || differs "$file" "its program isn't stored beside it"
done
for data in examples/{panes,steps,sessions,book}/*.data; do
    [ -e "$data" ] || continue
    [ -f "${data%.data}.script" ] || differs "$data" "its script isn't stored beside it"
done

for wanted in examples/{panes,steps,sessions,book}/*.out; do
    name=${wanted%.out}
    words=(show "$name.f")
    if [ -f "$name.args" ]; then
        mapfile -t words <"$name.args"
    elif [ -f "$name.script" ]; then
        words=(session "$name.f" "$name.script")
        if [ -f "$name.data" ]; then
            words+=(--data "$name.data")
        fi
    fi
    wanted_status=0
    if [ -f "$name.status" ]; then
        read -r wanted_status <"$name.status"
    fi
    status=0
    timeout 30 ./ped "${words[@]}" </dev/null >"$work/written" || status=$?
    if ! cmp -s -- "$wanted" "$work/written"; then
        differs "$name" "the output differs:"
        diff -u --text --label "$wanted" --label "written by ./ped ${words[*]}" -- "$wanted" "$work/written" || true
    elif [ "$status" -ne "$wanted_status" ]; then
        differs "$name" "the exit status is $status, and $wanted_status is wanted"
    else
        passed=$((passed + 1))
    fi
done

printf 'examples: %s as stored, %s different\n' "$passed" "$failed"
[ "$failed" -eq 0 ] && [ "$passed" -gt 0 ]
