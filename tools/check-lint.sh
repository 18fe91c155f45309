#!/usr/bin/env bash
# Runs linters: shellcheck over the shell scripts, pyflakes and mypy over the companion and the scripts in Python. They are Debian's
# packages shellcheck, pyflakes3 and mypy. Where one isn't there, its check is skipped, and a line says so.
set -eu
cd -- "$(dirname -- "${BASH_SOURCE[0]}")/.."

status=0
# has COMMAND PACKAGE: whether a linter is there.
has() {
    command -v "$1" >/dev/null && return
    printf 'lint: skipped: %s is not there (Debian: apt-get install %s)\n' "$1" "$2"
    return 1
}
# run NAME COMMAND ..: runs a linter, and shows what it reports where it finds something.
run() {
    local name=$1 said
    shift
    if said=$("$@" 2>&1); then
        printf 'lint: %s: nothing found\n' "$name"
    else
        printf '%s\nlint: %s: failed\n' "$said" "$name"
        status=1
    fi
}

mapfile -t shell < <(grep -lE '^#!.*\bbash' .ci/run ped prove tools/* 2>/dev/null)
mapfile -t python < <(grep -lE '^#!.*\bpython3' pedx tools/* editors/*/* 2>/dev/null; printf '%s\n' tools/pages.py)
! has shellcheck shellcheck || run shellcheck shellcheck --external-sources --severity=warning "${shell[@]}"
! has pyflakes3 pyflakes3 || run pyflakes pyflakes3 companion "${python[@]}"
! has mypy mypy || run mypy mypy --cache-dir=/dev/null companion tools/pages.py
exit "$status"
