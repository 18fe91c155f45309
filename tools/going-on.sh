#!/usr/bin/env bash
# Tries that a session goes on where memory was refused. A small program plays a script on a session; where a command finds no
# memory, it compares the source, the source a step back and the source a step forward again with what they were before the
# command, and gives the command once more. Each growth of memory is refused in turn: of each session the first call for memory that
# the program makes, then the second alone, and so on to the last. Whichever it is, the program has to write the same in the end; but
# where it has no memory for itself, status 6 and nothing. With ample memory it has to write what `ped session` writes, but for what
# `tested` shows: a step back and forward again is looked at before each command.
#
#   tools/going-on.sh [--program PROGRAM] [--every STEP] [SESSION ..]
#
# The sessions are those of tools/refused-growth.sh, all where none is given; with --every only each such growth is refused, from the
# first one on. It is no part of the gate, and wants a C compiler, for what stands between the program and the C library.
#
# The small program is written here, and is no crate of the repository. It is proved and built in a copy of the sources, in three or
# four minutes, over the libraries which .ci/run or ./prove has left in the crates' folders out/ for the present sources; of these none is
# proved or built here. It is kept in this checkout's out/ for the next call. PROGRAM is one that was built elsewhere; with it none is
# built. There is a line for each session, and the status is 0 only where all is as wanted. docs/HOSTILE.md has the figures. While it
# builds, out/ has a second crates.txt, which `rt ci` refuses: don't run the gate in this checkout meanwhile.
set -eu
export LC_ALL=C
self=$(readlink -f -- "${BASH_SOURCE[0]}")
top=${self%/tools/*}

stop() {
    printf 'going on: nothing was tried: %s\n' "$1"
    exit 1
}

program=
every=1
while [ $# -gt 0 ]; do
    case $1 in
        --program) program=$(readlink -f -- "${2-}") && shift ;;
        --every) every=${2-} && shift ;;
        -*) stop "there is no option $1" ;;
        *) break ;;
    esac
    shift || stop 'an option wants a word'
done
[[ $every =~ ^[1-9][0-9]*$ ]] || stop '--every wants a number'
[ $# -gt 0 ] || set -- wavefront reversal twelve sums

# shellcheck source=tools/program.sh
. "$top/tools/program.sh"
# shellcheck source=tools/growth.sh
. "$top/tools/growth.sh"
sum=$(sources_sum)
ped=$(program_of "$sum")
mkdir -p -- "$top/out"
# Below out/, so that libraries can be linked there.
work=$(mktemp -d -- "$top/out/going-on-XXXXXX")
trap 'rm -rf -- "$work"' EXIT

# ---- The small program

write_crate() {
    mkdir -p -- src proofs/main
    cat >proofs/main/Invariants.antt <<'END_OF_INVARIANTS'
use Rattle.ped_going_on.proofs.main.Given as goal

abbrev pub ghosts-told : goal.ghosts-told
ghosts-told a = record { name = a.blank.name; parts = a.blank.parts }
END_OF_INVARIANTS
    cat >src/main.rt <<'END_OF_MAIN'
//! Plays a script on a session, and goes on where a command finds no memory.
#![tactic(auto)]

ghost use Rattle.std.specs.Prelude.{◌≡◌, ◌<◌};

use ped_session::ped_base::{Bytes, NoMemory};
use ped_session::ped_script::{Command, commands};
use ped_session::ped_verdict::Steps;
use ped_session::{Reply, Session, reply_text};
use std::alloc::Global;
use std::env::Env;
use std::marker::Brand;
use std::process::ExitCode;
use std::rt::Files;
use std::sync::ledger::{Blank, Ledger};
use std::{env, fs, io};

/// What is told of a script, and whether a command of it had to be given once more.
#[derive(Drop)]
pub struct Answers {
    text: String,
    again: bool,
}

/// Writes what is told. The status is 0 where each command was given once, 3 where one was given once more, and 6 where the
/// program has no memory for itself.
fn main(rt: HostRuntime) -> io::Result<ExitCode> {
    match told::<Brand, _>(&rt, Blank::new(1)) {
        Some(told) => {
            print!(rt; "{}", told.text)?;
            Ok(ExitCode::from(if told.again { 3 } else { 0 }))
        }
        None => Ok(ExitCode::from(6)),
    }
}

/// What is told of a program and a script, which the words name; none where there is no memory for it.
fn told<L: Ledger, R: Env + Files + AllocGlobal>(rt: &R, blank: Blank) -> Option<Answers>
    requires name { blank.name ≡ L.name }
    requires parts { blank.parts ≡ L.parts }
    requires some { 0 < L.parts }
{
    let words: Vec<String> = env::args(rt).ok()?.skip(1).collect(rt.alloc()).ok()?;
    let mut steps = Steps::<L>::new(blank);
    match words.as_slice() {
        [program, script] => {
            let program = fs::read(rt, program.as_str()).ok()?;
            let script = fs::read(rt, script.as_str()).ok()?;
            played(rt.alloc(), &program, &script, &mut steps).ok()
        }
        _ => None,
    }
}

/// What a script writes on a program.
fn played<L: Ledger>(
    alloc: Global,
    program: &[u8],
    script: &[u8],
    steps: &mut Steps<L>,
) -> Result<Answers, NoMemory> {
    let mut out = Bytes::new(alloc);
    let mut again = false;
    let script = commands(alloc, script)?;
    let mut session = match Session::<L>::open(alloc, program, steps) {
        Ok(session) => session,
        Err(_) => return Err(NoMemory),
    };
    for item in script.as_slice() {
        match &item.command {
            Some(command) => {
                if answer(alloc, &mut session, item.line, command, steps, &mut out)? {
                    again = true;
                }
            }
            None => {}
        }
    }
    let text = String::from_utf8_lossy(alloc, out.as_slice())?;
    Ok(Answers { text, again })
}

/// Answers a command, and says whether it had to be given once more. Where it finds no memory, the session must be as it was.
fn answer<L: Ledger>(
    alloc: Global,
    session: &mut Session<L>,
    line: u64,
    command: &Command,
    steps: &mut Steps<L>,
    out: &mut Bytes,
) -> Result<bool, NoMemory> {
    let mut before = Bytes::new(alloc);
    push_sources(alloc, session, steps, &mut before)?;
    match session.apply(alloc, command, &[], steps) {
        Ok(reply) => {
            push_reply(alloc, line, &reply, out)?;
            return Ok(false);
        }
        Err(NoMemory) => {}
    }
    let mut behind = Bytes::new(alloc);
    push_sources(alloc, session, steps, &mut behind)?;
    if before.as_slice() != behind.as_slice() {
        out.extend_from_slice(b"the session isn't as it was\n")?;
    }
    match session.apply(alloc, command, &[], steps) {
        Ok(reply) => push_reply(alloc, line, &reply, out)?,
        Err(NoMemory) => out.extend_from_slice(b"the command finds no memory twice\n")?,
    }
    Ok(true)
}

/// Adds what is printed of a reply.
fn push_reply(alloc: Global, line: u64, reply: &Reply, out: &mut Bytes) -> Result<(), NoMemory> {
    let text = reply_text(alloc, line, reply)?;
    out.extend_from_slice(text.as_slice())
}

/// Adds the source, the one a step back, and the one a step forward again where there was a step back.
fn push_sources<L: Ledger>(
    alloc: Global,
    session: &mut Session<L>,
    steps: &mut Steps<L>,
    out: &mut Bytes,
) -> Result<(), NoMemory> {
    out.extend_from_slice(session.source())?;
    let undone = session.apply(alloc, &Command::Undo, &[], steps)?;
    out.extend_from_slice(session.source())?;
    match undone {
        Reply::Changed => {
            let redone = session.apply(alloc, &Command::Redo, &[], steps)?;
            push_reply(alloc, 0, &redone, out)?;
            out.extend_from_slice(session.source())
        }
        _ => out.push(b'-'),
    }
}
END_OF_MAIN
}

# Copies the sources and links the libraries of the crates, with one crate more, and has the toolchain prove and build that one. It runs
# what it has built, on the first session.
build_program() {
    local crate
    find HANDLES crates/*/src crates/*/specs crates/*/proofs -type f -print0 | xargs -0 cp --parents -t "$work" --
    { cat crates.txt; echo 'ped_going_on: ped_session'; } >"$work/crates.txt"
    for crate in crates/*/out/rlib; do
        crate=${crate%/rlib}
        mkdir -p -- "$work/$crate"
        cp -al -- "$crate/rlib" "$work/$crate/rlib"
    done
    mkdir -- "$work/crates/ped_going_on"
    cd -- "$work/crates/ped_going_on"
    write_crate
    write_session wavefront
    rt run -- program.f script >run.out 2>run.err </dev/null || { tail -n 20 run.err && stop 'the small program was not proved and built'; }
    # As ped is kept, so that no call finds a part of it.
    mv -f -- out/ped_going_on "$top/out/part-$$"
    mv -f -- "$top/out/part-$$" "$1"
    cd -- "$top"
}

if [ -z "$program" ]; then
    program=$(program_of "$({ printf '%s\n' "$sum" && cat -- "$self"; } | sha256sum | cut -c1-64)" ped_going_on)
    if ! [ -x "$program" ]; then
        [ -x "$ped" ] || stop 'the crates are not proved; .ci/run or ./prove proves them'
        cd -- "$top"
        build_program "$program"
    fi
fi
if ! [ -f "$program" ] || ! [ -x "$program" ]; then
    stop "there is no program $program"
fi
cd -- "$work"
make_growth

# ---- Runs

# Refuses growths by their numbers, and writes a line for each: its number, and what came of it.
# shellcheck disable=SC2317
refuse() {
    local number status
    for number; do
        status=0
        # Not `timeout` itself: its own memory isn't refused.
        timeout -k 1 20 env "GROWTH=$number" "LD_PRELOAD=$work/growth.so" "$program" program.f script \
            </dev/null >"got-$number" 2>"said-$number" || status=$?
        if [ -s "said-$number" ]; then
            printf '%s said-something-and-status-%s\n' "$number" "$status"
        elif [ "$status" -eq 3 ] && cmp -s ample "got-$number"; then
            printf '%s again\n' "$number"
        elif [ "$status" -eq 0 ] && cmp -s ample "got-$number"; then
            printf '%s whole\n' "$number"
        elif [ "$status" -eq 6 ] && [ ! -s "got-$number" ]; then
            printf '%s itself\n' "$number"
        else
            printf '%s something-else-and-status-%s\n' "$number" "$status"
        fi
        rm -- "got-$number" "said-$number"
    done
}
export -f refuse
export program work

# Whether the small program writes what ped does.
is_as_ped() {
    "$ped" session program.f script </dev/null | sed '/^tested /d' >of-ped || true
    sed '/^tested /d' ample | cmp -s of-ped -
}

failed=0
for session; do
    write_session "$session"
    GROWTHS=$work/growths LD_PRELOAD=$work/growth.so "$program" program.f script </dev/null >ample ||
        stop "the small program ends with another status than 0 on $session"
    [ -s ample ] || stop "the small program writes nothing on $session"
    if ! [ -x "$ped" ]; then
        echo 'ped is not built, so nothing is compared with what it writes'
    elif ! is_as_ped; then
        printf '%s: ped session writes something else\n' "$session"
        failed=1
    fi
    growths=$(cat growths)
    [ "$growths" -gt 0 ] || stop 'the program takes its memory in another way'
    seq 1 "$every" "$growths" | xargs -n 100 -P "$(nproc)" bash -c 'refuse "$@"' refuse >told
    awk -v session="$session" -v growths="$growths" '
        $1 == 6 && $2 == "whole" { $2 = "less" } # The list of the words: behind a buffer for each of the three, for their list and for none.
        { kind[$2]++; if ($2 != "again" && $2 != "itself" && $2 != "less") other = other "\n    growth " $1 ": " $2 }
        END {
            printf "%s: of %d growths %d were refused: behind %d the session went on and the same was written, for %d the program had no memory for itself%s%s\n", \
                session, growths, NR, kind["again"], kind["itself"], kind["less"] ? ", and one is not missed" : "", other
            exit kind["again"] + kind["itself"] + kind["less"] != NR || !kind["again"]
        }
    ' told || failed=1
done
exit "$failed"
