#!/usr/bin/env bash
# Reads in the sources who calls the dependence tests and who counts them: only ped_verdict, which counts each call of
# its own test, names ped_siv and ped_miv; only a step finds dependences without a test, of a program that no session holds; and a counter is made in one place of a program, in its root file. No contract can say so, since the bytes of a pane don't show where they come
# from. Then it plants such calls in a copy of the sources, and wants each to be found. Nothing is proved or built here.
set -eu
top=$(cd -- "$(dirname -- "${BASH_SOURCE[0]}")/.." && pwd)
work=$(mktemp -d)
trap 'rm -rf -- "$work"' EXIT

# Writes what is wrong in the sources of a repository.
faults() (
    cd -- "$1"
    find crates/*/src -name '*.rt' -type f -print0 | LC_ALL=C sort -z | xargs -0 awk -f "$top/tools/test-calls.awk"
)

status=0
faults "$top" >"$work/said"
if [ -s "$work/said" ]; then
    cat -- "$work/said"
    status=1
fi

mkdir "$work/copy"
(cd -- "$top" && find crates/*/src -name '*.rt' -type f -print0 | xargs -0 cp --parents -t "$work/copy")

# Plants code behind a file of the copy, and wants that it is found.
plants=0
plant() {
    cp -- "$top/crates/$1" "$work/kept"
    printf '%s\n' "$2" >>"$work/copy/crates/$1"
    faults "$work/copy" >"$work/said"
    cp -- "$work/kept" "$work/copy/crates/$1"
    plants=$((plants + 1))
    if ! grep -q "^crates/$1: " "$work/said"; then
        printf 'not found in %s: %s\n' "$1" "$2"
        status=1
    fi
}
plant ped_graph/src/lib.rt 'use ped_siv::ziv_excludes;'
plant ped_answer/src/panes.rt 'fn same(c: i64) -> bool { !ped_siv::ziv_excludes(c, c) }'
plant ped_edges/src/lib.rt 'pub use ped_miv::banerjee_excludes;'
plant ped_verdict/src/lib.rt 'pub use ped_siv::ziv_excludes;'
plant ped_splits/src/lib.rt 'use ped_graph::ped_verdict::vectors_of;'
plant ped_session/src/lib.rt 'use ped_graph::ped_verdict::{Verdict, vectors_of as untested};'
plant ped_session/src/session.rt 'fn first(alloc: Global, p: &Prepared) -> Result<Vec<Edge>, NoMemory> { p.edges_of(alloc, 0) }'
plant ped_answer/src/panes.rt 'fn counter<L: Ledger>(blank: Blank) -> Steps<L> { Steps::new(blank) }'
plant ped_answer/src/answering.rt 'fn counter<L: Ledger>(blank: Blank) -> Steps<L> { Steps::<L>::new(blank) }'
plant ped_graph/src/lib.rt 'fn counter<L: Ledger>(blank: Blank) -> Steps<L> { <Steps<L>>::new(blank) }'
plant ped_graph/src/lib.rt 'use ped_verdict::Steps as Count;'
plant ped_graph/src/lib.rt 'fn one() -> Blank { Blank::new(1) }'

if [ "$status" -eq 0 ]; then
    printf 'calls of tests: only those that are counted, with one counter; %s plants found\n' "$plants"
fi
exit "$status"
