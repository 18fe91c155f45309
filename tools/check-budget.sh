#!/usr/bin/env bash
# Holds the repository to its budget, by what makes proofs dear. A crate's proof takes time for each step of its lowered code,
# for each of its functions, and for each module that it loads: tools/proof-size shows all three, and CONTRIBUTING.md says what a
# change costs by them. A crate is proved once more for its tests and for each must-fail edit. And whenever the toolchain
# looks whether a crate is up to date, it goes down every way that leads from the crate by crates.txt, so the same crate is read as
# often as ways lead to it.
#
# Held are:
# - must-fail edits: in seven cheap crates, three each at most; all other wrong bodies are files that tools/wrong-bodies tries
# - tests: in one crate
# - ways down by crates.txt
# - no crate passes on another one as a whole: each `pub use` of src/lib.rt names items
# - proofs by hand stand in ped_host alone: such a proof could write anything into the log of what was read and written
# - steps of a function, and of a crate: at most those below, but for those that tools/large-functions.txt lists with a number of
#   their own, which may only fall. They are read from the built libraries, and passed over where a crate has none
# - how far crates reach into the lemmas of others, file by file: tools/lemma-doors.py --list shows it
# - imports that name more than three crates
#
# There is a line for each count that is above its limit, and a last line with all. The status is 0 only where none is.
set -eu
cd -- "$(dirname -- "${BASH_SOURCE[0]}")/.."

# The limits.
most_edits_of_a_crate=3
most_crates_with_edits=7
most_test_lines=60
most_crates_with_tests=1
# Items are passed on one by one, so a crate names each crate of which it uses items. A way costs 2 ms a look, and a crate that is
# passed on as a whole costs each crate above it 5 s: so there are more ways than there were, and they cost less.
# ped_rows, laws about the rows of the pane, is on ped_laws and not on the chain of steps: that costs 420 ways, and spares the chain its proof.
# The six families of steps stand side by side on ped_rules, and ped_transformations on all of them: that is 4,855 ways, some 10 s a look
# at all crates, and a change in one family spares the others their proofs.
# ped_loops names ped_evidence, on which steps with evidence rest: with the line of ped_script that is 1,448 ways, some 3 s a look. The crates
# above get all of it from ped_loops. Below ped_rules, so that each family could use it, it would be 10,000.
# ped_versions, the versions of a program, is on ped_update and beside the steps: that is 330 ways more, and the chain of steps and sessions
# is spared its proof.
most_ways=19200
most_steps_of_a_function=100
most_steps_of_a_crate=2500
# 9 files of lemmas and 30 imports came with `auto`: what it does to sessions rests on what each step does to the number of statements.
# With subroutines came 23 files and 168 imports: reading and refusing units rests on what reading and refusing a program does
# (ped_units), their runs on those of programs (ped_call_runs), and blocks on the dependences of programs (ped_inline). As three crates
# in place of one, ped_units, ped_links and ped_calls cite lemmas of each other: 6 files and 15 imports.
# That there is one number of dependence tests for each answer came with 3 imports. That reads are noted by their names, and that a
# DO makes what no reference makes (ped_answer), came with 1 file and 13 imports. That proven rows occur (ped_rows) came with 10 files
# and 81 imports: it rests on what ped_laws shows of runs. That expansions break no rule on names but a limit (ped_call_runs) came
# with 1 file and 24 imports: it rests on what is known of declarations and names. What families of steps cited of each other stands in
# ped_rules: 3 files and 76 imports, since the family that it came from cites it there, too. Steps with evidence came with 1 file and 8
# imports, of ped_loops and ped_answer. That a PARALLEL DO changes nothing that a graph holds (ped_session) came with 8 imports.
# ped_update cites what ped_graph, of which it was a part, shows of lists, places, orders and programs: 4 files and 11 imports.
most_lemma_files=381
most_lemma_imports=3129
most_needless_doors=122
# An import names the crates on its way, as Rattle.ped_rules.specs.ped_laws.specs.Runs: at most three.
most_long_imports=0

edits() {
    find crates/*/must-fail -name '*.edit' 2>/dev/null
}

# The files with test functions.
tests() {
    grep -rlE --include='*.rt' '^ *#\[test\]' crates/*/src
}

# How many lines of such a file are tests: those of its module of tests, or all where it is such a module.
lines_of_tests() {
    awk '/^#\[cfg\(test\)\]/ && !at { at = NR } END { print at ? NR - at + 1 : NR }' "$1"
}

# How many crates the lines name that begin with crates/NAME/.
count_crates() {
    cut -d / -f 2 | sort -u | wc -l
}

# How many ways lead down from all crates: from each one that ends there, and those of the crates that it uses.
count_ways() {
    awk '
        function ways(crate,    names, n, i, sum) {
            if (!(crate in known)) {
                sum = 1
                n = split(uses[crate], names)
                for (i = 1; i <= n; i++) if (names[i] in uses) sum += ways(names[i])
                known[crate] = sum
            }
            return known[crate]
        }
        { sub(/#.*/, "") }
        NF { at = index($0, ":"); split(substr($0, 1, at - 1), words); uses[words[1]] = substr($0, at + 1) }
        END { for (crate in uses) sum += ways(crate); print sum + 0 }
    ' crates.txt
}

# The most edits that a crate has.
most_of_a_crate() {
    cut -d / -f 2 | sort | uniq -c | awk '$1 > most { most = $1 } END { print most + 0 }'
}

# The places where a library passes on a crate as a whole.
whole_crates() {
    grep -nE '^ *pub use ([a-z_0-9]+|[a-z_0-9]+::\*|[a-z_0-9]+ as [a-z_0-9]+|[a-z_0-9]+::\{?self.*);' crates/*/src/lib.rt || true
}

# How many imports name more than three crates.
long_imports() {
    grep -rhoE --include='*.antt' --include='*.rt' 'use Rattle(\.[A-Za-z_0-9]+)+' crates/*/src crates/*/specs crates/*/proofs |
        awk -F '.' '{ crates = 0; for (i = 2; i <= NF; i++) if ($i ~ /^ped_/) crates++; if (crates > 3) long++ } END { print long + 0 }'
}

# The proofs by hand outside ped_host.
hand_proofs() {
    find crates -name Proof.antt -not -path 'crates/*/out/*' -not -path 'crates/ped_host/*'
}

# Of lines `NAME STEPS` of functions and crates, those with too many, as `NAME: STEPS steps, and the limit is LIMIT`.
too_large() {
    awk -v most_function="$most_steps_of_a_function" -v most_crate="$most_steps_of_a_crate" '
        NR == FNR { if (!/^#/ && NF) limit[$1] = $2; next }
        {
            most = $1 in limit ? limit[$1] : $1 ~ /::/ ? most_function : most_crate
            if ($2 > most) printf "%s: %d steps, and the limit is %d\n", $1, $2, most
        }
    ' tools/large-functions.txt -
}

said=()
status=0
hold() {
    said+=("$2 of $3 $1")
    if [ "$2" -gt "$3" ]; then
        printf 'budget: %s %s, and the limit is %s\n' "$2" "$1" "$3"
        status=1
    fi
}

test_lines=0
while IFS= read -r file; do
    test_lines=$((test_lines + $(lines_of_tests "$file")))
done < <(tests)

hold 'must-fail edits in one crate' "$(edits | most_of_a_crate)" "$most_edits_of_a_crate"
hold 'crates with such edits' "$(edits | count_crates)" "$most_crates_with_edits"
hold 'lines of tests' "$test_lines" "$most_test_lines"
hold 'crates with tests' "$(tests | count_crates)" "$most_crates_with_tests"
hold 'ways down by crates.txt' "$(count_ways)" "$most_ways"

read -r lemma_files lemma_imports needless_doors < <(python3 tools/lemma-doors.py)
hold 'files of lemmas that other crates cite' "$lemma_files" "$most_lemma_files"
hold 'imports of other crates'"'"' lemmas' "$lemma_imports" "$most_lemma_imports"
hold 'open files of lemmas that no other crate cites' "$needless_doors" "$most_needless_doors"
hold 'imports by way of more than three crates' "$(long_imports)" "$most_long_imports"

while IFS= read -r place; do
    printf 'budget: %s: a crate is passed on as a whole\n' "$place"
    status=1
done < <(whole_crates)

while IFS= read -r file; do
    printf 'budget: %s: a proof by hand, and only ped_host may have one\n' "$file"
    status=1
done < <(hand_proofs)

built=$(tools/proof-size --files | grep -c . || true)
libraries=$(find crates -mindepth 3 -maxdepth 3 -path '*/src/lib.rt' | wc -l)
if [ "$built" -lt "$libraries" ]; then
    printf 'budget: %s of %s libraries are built here, so steps are counted in these alone\n' "$built" "$libraries"
fi
if [ "$built" -gt 0 ]; then
    steps=$(tools/proof-size --above "$most_steps_of_a_function") || status=1
    while IFS= read -r line; do
        printf 'budget: %s\n' "$line"
        status=1
    done < <(too_large <<<"$steps")
fi

printf 'budget: %s' "${said[0]}"
printf ', %s' "${said[@]:1}"
printf '\n'
exit "$status"
