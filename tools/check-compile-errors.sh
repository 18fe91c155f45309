#!/usr/bin/env bash
# Tries changes that the compiler must refuse, since what they do would make a pane mean nothing: a verdict that no test
# made, a copy of a verdict, a counter that nobody counts with, a copy of the counter. No contract can say that such code
# can't be written; private fields, and types without a copy, see to it. Each change is made to a small program over a copy
# of ped_verdict and the crates below it. The program without a change must compile and run. Nothing is proved here. Code
# which is generic in its ledger and makes a counter of its own is refused by proof, by what `Steps::new` requires: it stands
# among the wrong bodies of ped_graph.
set -eu
top=$(cd -- "$(dirname -- "${BASH_SOURCE[0]}")/.." && pwd)
work=$(mktemp -d)
trap 'rm -rf -- "$work"' EXIT

# The crates that ped_verdict stands on, and itself.
below='ped_base ped_bits ped_views ped_siv ped_miv ped_verdict'
cp -- "$top/HANDLES" "$work"
for crate in $below; do
    mkdir -p "$work/crates/$crate"
    cp -r -- "$top/crates/$crate/src" "$work/crates/$crate"
    for part in specs proofs; do
        [ ! -d "$top/crates/$crate/$part" ] || cp -r -- "$top/crates/$crate/$part" "$work/crates/$crate"
    done
    grep "^$crate:" "$top/crates.txt" >>"$work/crates.txt"
done
echo 'ped_probe: ped_base ped_views ped_verdict' >>"$work/crates.txt"
mkdir -p "$work/crates/ped_probe/src"

# The program tests a pair without loops and positions. Its last lines are those that it is given.
write_program() {
    cat >"$work/crates/ped_probe/src/main.rt" <<END_OF_PROGRAM
//! Tests one pair of references.
#![tactic(auto)]

use ped_base::NoMemory;
use ped_verdict::{Steps, Verdict, test};
use ped_views::PairView;
use std::alloc::Global;
use std::marker::Brand;
use std::process::ExitCode;
use std::sync::ledger::{Blank, Ledger};

fn main(rt: HostRuntime) -> ExitCode {
    let mut steps = Steps::<Brand>::new(Blank::new(1));
    match tested(rt.alloc(), &mut steps) {
        Ok(_) => ExitCode::SUCCESS,
        Err(_) => ExitCode::from(1),
    }
}

fn tested<L: Ledger>(alloc: Global, steps: &mut Steps<L>) -> Result<Verdict<L>, NoMemory> {
    let view = PairView {
        loops: Vec::new(alloc),
        source_inner: Vec::new(alloc),
        sink_inner: Vec::new(alloc),
        positions: Vec::new(alloc),
    };
$1
}
END_OF_PROGRAM
}

# Compiles and runs the program; what the toolchain says stands in a file.
try_program() {
    (cd -- "$work/crates/ped_probe" && rt try >"$work/said" 2>&1)
}

status=0
refused=0
say() {
    printf 'check-compile-errors: %s; the toolchain says:\n' "$1"
    tail -n 10 -- "$work/said"
    status=1
}

write_program '    test(alloc, view, steps)'
try_program || say 'the program without a change must compile and run'

# The program with these last lines must be refused by the compiler with an error of this name.
refuses() {
    write_program "$3"
    if try_program; then
        say "$1: it must not compile"
    elif ! grep -q "^src/main.rt:.*error\[$2\]" "$work/said"; then
        say "$1: the error $2 is wanted"
    else
        refused=$((refused + 1))
    fi
}
refuses 'a verdict made from its fields' private-field \
    '    let possible = ped_bits::Row::new(alloc, 1)?;
    Ok(Verdict { view, possible, ledger: std::marker::PhantomData })'
refuses 'a copy of a verdict' move-out-of-place \
    '    let verdict = test(alloc, view, steps)?;
    let copy = *&verdict;
    Ok(copy)'
refuses 'a clone of a verdict' unknown-method \
    '    let verdict = test(alloc, view, steps)?;
    Ok(verdict.clone())'
refuses 'a copy of the counter' move-out-of-place \
    '    let mut copy = *steps;
    test(alloc, view, &mut copy)'
refuses 'a clone of the counter' unknown-method \
    '    let mut copy = steps.clone();
    test(alloc, view, &mut copy)'
refuses 'a counter made from its fields' private-field \
    '    let (book, share) = Blank::new(1).open();
    let mut other = Steps::<L> { book, share };
    test(alloc, view, &mut other)'
refuses 'a tick without a test' private-item \
    '    steps.tick();
    test(alloc, view, steps)'

if [ "$status" -eq 0 ]; then
    printf 'compile errors: %s changes refused by the compiler\n' "$refused"
fi
exit "$status"
