#!/usr/bin/env bash
# Runs the cases, and compares what the program answers with what each case wants, byte for byte.
#
#   tools/check-cases.sh [--program PROGRAM] [FILE ..]
#
# The files are those of cases/ where none is given, but for those of cases/faults/, which tools/check-faults.sh runs;
# cases/README.md says how they are written. The program is the one that
# .ci/run or ./prove has proved and built from the present sources; nothing is proved or built here. The last line counts the
# cases. The status is 0 only where there are some
# and all passed.
set -eu
export LC_ALL=C
top=$(cd -- "$(dirname -- "${BASH_SOURCE[0]}")/.." && pwd)

stop() {
    printf 'cases: none was run: %s\n' "$1"
    exit 1
}

program=
if [ "${1-}" = --program ]; then
    [ $# -ge 2 ] || stop '--program wants a file'
    program=$(readlink -f -- "$2")
    shift 2
else
    # shellcheck source=tools/program.sh
    . "$top/tools/program.sh"
    program=$(program_of "$(sources_sum)")
fi
if ! [ -f "$program" ] || ! [ -x "$program" ]; then
    stop 'the proved program is not built; .ci/run or ./prove builds it'
fi

files=("$@")
if [ $# -eq 0 ]; then
    cd -- "$top"
    mapfile -t files < <(find cases -type f ! -path cases/README.md ! -path 'cases/faults/*' | sort)
fi
[ "${#files[@]}" -gt 0 ] || stop 'there are no files of cases'
for file in "${files[@]}"; do
    if ! [ -f "$file" ] || ! [ -r "$file" ]; then
        stop "$file is not there"
    fi
    [[ $file == *.cases ]] || stop "$file is not a file of cases"
done

work=$(mktemp -d)
trap 'rm -rf -- "$work"' EXIT
count=$(awk -v work="$work" -f "$top/tools/cases.awk" -- "${files[@]}") || stop 'a file of cases has no such form'
[ "$count" -gt 0 ] || stop 'the files hold no case'

# Calls the program on the words in the case's folder. Keeps its output and messages in `got`, with its status.
call() {
    status=0
    "$program" "$@" </dev/null >written 2>&1 || status=$?
    if IFS= read -r -d '' got <written; then
        got+=' and a byte 0'
    fi
}

# Says what differs, with both texts.
differs() {
    printf '%s' "$2" >wanted
    printf '%s' "$3" >got
    {
        printf '%s\n' "$1"
        diff -u --text --label wanted --label got wanted got
    } >differs || true
}

# Takes the output apart: the source pane, the lines that it prints, and the dependence pane behind it. Fails where
# the pane hasn't as many rows as it says, or where they aren't numbered from 1 or their statements aren't.
take_apart() {
    local rows number statement=1 last field row
    printed=
    dependences=
    [[ $got == *$'\n' ]] || return
    mapfile -t rows <written
    last=${rows[0]#source }
    [[ ${rows[0]} == "source $last" && $last =~ ^[1-9][0-9]*$ && ${#rows[@]} -gt $last ]] || return
    for ((number = 1; number <= last; number++)); do
        printf -v field '%5d ' "$number"
        row=${rows[number]}
        [[ $row == "$field"* ]] || return
        row=${row#"$field"}
        printf -v field '%4d ' "$statement"
        if [[ $row == "$field"* ]]; then
            statement=$((statement + 1))
            row=${row#"$field"}
        else
            [[ $row == '     '* ]] || return
            row=${row:5}
        fi
        printed+=$row$'\n'
    done
    for ((; number < ${#rows[@]}; number++)); do
        dependences+=${rows[number]}$'\n'
    done
    source=${got:0:${#got}-${#dependences}}
}

same_output() {
    if [ "$got" != "$2" ]; then
        differs "the output differs (status $status):" "$2" "$got"
        return 1
    elif [ "$status" -ne "$1" ]; then
        differs "the exit status is $status, and $1 is wanted" '' ''
        return 1
    fi
}

# Compares one answer. Fails where it differs.
compare() {
    local wanted=
    if [ "$1" != read ]; then
        IFS= read -r -d '' wanted <"wanted.${1%% *}" || true
    fi
    if [[ $1 == output* ]]; then
        same_output "${1#output }" "$wanted"
        return
    fi
    if [ "$status" -ne 0 ]; then
        differs "the exit status is $status, and 0 is wanted:" "$wanted" "$got"
        return 1
    fi
    if ! take_apart; then
        differs 'the output is no source pane:' "$wanted" "$got"
        return 1
    fi
    case $1 in
        printed) same_part 'the printed lines differ:' "$wanted" "$printed" && show_again ;;
        read) show_again ;;
        source) same_part 'the source pane differs:' "$wanted" "$source" && show_again ;;
        dependences) same_part 'the dependence pane differs:' "$wanted" "$dependences" ;;
    esac
}

same_part() {
    if [ "$2" != "$3" ]; then
        differs "$@"
        return 1
    fi
}

# The printed lines are a program with the same panes.
show_again() {
    local first=$got
    printf '%s' "$printed" >program.f
    call show program.f
    if [ "$got" != "$first" ] || [ "$status" -ne 0 ]; then
        differs "what is printed is not shown as itself, with status $status:" "$first" "$got"
        return 1
    fi
}

run_case() {
    local words=(show program.f) all answer
    cd -- "$work/$1" || return
    if [ -f words ]; then
        mapfile -t words <words
    elif [ -f script ]; then
        words=(session program.f script)
        if [ -f data ]; then
            words+=(--data data)
        fi
    fi
    call "${words[@]}"
    mapfile -t all <answers
    for answer in "${all[@]}"; do
        compare "$answer" || return
    done
    : >passed
}

# Runs cases by their numbers.
run_cases() {
    local number
    # A program that doesn't end is stopped after 20 s of the processor.
    ulimit -t 20
    for number; do
        run_case "$number" || true
    done
}

export program work
export -f call differs take_apart same_output same_part compare show_again run_case run_cases
seq 1 "$count" | xargs -n 50 -P "$(nproc)" bash -c 'run_cases "$@"' run_cases || true

# Each case that differs by its name, and the first of them with both texts.
passed=0
differ=0
for ((number = 1; number <= count; number++)); do
    if [ -f "$work/$number/passed" ]; then
        passed=$((passed + 1))
    else
        differ=$((differ + 1))
        cat -- "$work/$number/name"
        if ! [ -f "$work/$number/differs" ]; then
            printf '    the case was not run to its end\n'
        elif [ "$differ" -le 10 ]; then
            sed 's/^/    /' -- "$work/$number/differs"
        fi
    fi
done

failed=$((count - passed))
printf 'cases: %s passed, %s failed\n' "$passed" "$failed"
[ "$failed" -eq 0 ] && [ "$passed" -gt 0 ]
