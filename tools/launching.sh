# shellcheck shell=bash disable=SC2034,SC2154
# What ./ped and ./prove have in common. Each reads this file by its full path, and sets `me` before, what its messages
# begin with, and `log` where it builds.

say() {
    printf '%s: %s\n' "$me" "$*" >&2
}

fail() {
    local status=$1
    shift
    say "$*"
    exit "$status"
}

# shellcheck source=tools/program.sh
. "${BASH_SOURCE[0]%/*}/program.sh" || fail 70 "can't read ${BASH_SOURCE[0]%/*}/program.sh"

sum=$(sources_sum) || fail 70 "can't read the sources below $top"
proved=$(program_of "$sum")
unproved=$(unproved_of "$sum")

# Ends the launch where nothing can be built.
want_toolchain() {
    command -v rt >/dev/null ||
        fail 70 "not built yet, and rt, the Rattle toolchain's command that builds it, isn't on the PATH"
    mkdir -p -- "$top/out" || fail 70 "can't write to $top/out"
}

# Whether a program is there. A broken one counts as none.
is_there() {
    is_program "$1" && return
    [ ! -e "$1" ] || say "$1 is broken (empty, cut off, or not executable), so it isn't run"
    return 1
}

# ---- The end of a launch is the end of all that it has started

# The folder in which a program is made.
room=''

# Ends the commands that the launch has started, and removes its folder. The toolchain may take seconds to end, and a
# caller may not wait for that: Python kills a launch a quarter of a second after an interrupt. So the folder goes first.
# What the toolchain still writes there meanwhile goes last.
clear_up() {
    local -a started
    read -r -d '' -a started < <(jobs -p)
    [ "${#started[@]}" -eq 0 ] || kill "${started[@]}"
    remove_room
    [ "${#started[@]}" -eq 0 ] || wait "${started[@]}"
    remove_room
    room=''
} 2>/dev/null

remove_room() {
    [ -z "$room" ] || rm -rf -- "$room"
}

# Ends the launch as the signal would have ended it.
end_by() {
    trap '' INT TERM HUP QUIT PIPE
    clear_up
    trap - EXIT "$1"
    kill "-$1" $$
    # Bash itself ignores QUIT.
    exit $((128 + $(kill -l "$1")))
}

trap clear_up EXIT
for signal in INT TERM HUP QUIT PIPE; do
    # shellcheck disable=SC2064
    trap "end_by $signal" "$signal"
done

# Runs the toolchain on the crate of the program, in the background. It has a session of its own, so a signal to the whole
# process group doesn't reach it. The launch ends it by one signal, and waits until it has ended its own processes. A second
# signal could disturb that.
toolchain() {
    trap '' INT QUIT
    cd -- "$top/crates/ped" || exit
    if command -v setsid >/dev/null; then
        set -- setsid rt "$@"
    else
        set -- rt "$@"
    fi
    exec "$@" </dev/null 9>&-
}

# Waits for the command that was started last, and returns its status. A signal is handled at once. If the command ran in
# the foreground, bash would handle the signal only after the command.
await() {
    wait "$!"
}

# Waits a moment, in the same way.
pause() {
    sleep 0.3 &
    await
}

# A long launch says every so many seconds what it does. The second number is the time of the next message.
every=20
next=$every

# Whether it is time to say what the launch does.
is_time() {
    [ "$SECONDS" -ge "$next" ] && next=$((SECONDS + every))
}

# Waits until no other launch makes the same program.
await_turn() {
    say 'another launch is building the program; waiting for it'
    flock 9 &
    local turn=$!
    while kill -0 "$turn" 2>/dev/null; do
        ! is_time || say "another launch is still building the program (after $SECONDS s)"
        pause
    done
}

# Calls a function that makes a program in the folder `room`, unless the program is there. Of launches at the same time
# one calls it, and the others wait for it.
in_turn() {
    local make=$1 program=$2 status=0
    exec 9>"$top/out/lock-$make" || fail 70 "can't write to $top/out"
    if command -v flock >/dev/null; then
        flock -n 9 || await_turn
        # Launches that were killed leave their folders.
        rm -rf -- "$top/out/$make"-??????
    fi
    if ! is_program "$program"; then
        room=$(mktemp -d -- "$top/out/$make-XXXXXX") || fail 70 "can't write to $top/out"
        "$make" || status=$?
        clear_up
    fi
    exec 9>&-
    return "$status"
}

# Ends the launch where the sources aren't those that it began with.
want_same_sources() {
    [ "$(sources_sum)" = "$sum" ] ||
        fail 71 "the sources changed while the program was being built; start it again (log: $log)"
}

# Whether a text is what the program answers to no words.
is_usage() {
    [[ $1 == "usage: ped "* ]]
}
