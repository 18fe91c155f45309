# Who calls the dependence tests, and who makes counters of them: read over all .rt files of crates/*/src, named
# by their paths from the top. Writes a line for each fault. A file's code is taken in one line, without blanks,
# comments, citations of definitions and tests.

function finish(    crate, names, made, blanks, wanted) {
    if (file == "") { return }
    crate = file
    sub(/^crates\//, "", crate)
    sub(/\/.*/, "", crate)
    if (crate ~ /^ped_(siv|miv|tests)$/ || file ~ /\/tests(\.rt|\/)/) { return }
    names = crate == "ped_verdict" ? "pub(\\([a-z]*\\))?useped_[sm]iv[^a-z_]" : "ped_[sm]iv[^a-z_]"
    if (code ~ names) {
        print file ": it calls tests of ped_siv or ped_miv, or hands them on; ped_verdict counts them"
    }
    if (code ~ /ped_verdict::[^;]*vectors_of/ && file != "crates/ped_graph/src/edges.rt") {
        print file ": it finds vectors without a test; ped_graph does, for a program that a session doesn't hold"
    }
    if (code ~ /(edges_of_pair|\.edges_of)\(/ && crate !~ /^ped_(graph|splits)$/) {
        print file ": it finds dependences without a test; only a step may, of a program that a session doesn't hold"
    }
    made = gsub(/Steps(::)?(<[^;(){}]*>)?>?::new[^a-z_]/, "&", code)
    blanks = gsub(/Blank::new[^a-z_]/, "&", code)
    wanted = file ~ /^crates\/(ped|ped_faults)\/src\/main\.rt$/
    if (made != wanted || blanks != wanted) {
        printf "%s: it makes %d counters of %d blanks; it should be %d\n", file, made, blanks, wanted
    }
    if (code ~ /Stepsas[A-Z]/ || code ~ /type[A-Za-z]*(<[^;]*>)?=[a-z_:]*Steps/) {
        print file ": it gives the counter another name"
    }
}

FNR == 1 { finish(); file = FILENAME; code = ""; skips = 0; marked = 0 }
skips || /^[[:space:]]*ghost use / { next }
marked && /^mod [a-z_]* \{/ { skips = 1; next }
{ marked = /^#\[cfg\(test\)\]/ }
{
    sub(/\/\/.*/, "")
    gsub(/[[:space:]]/, "")
    code = code $0
}
END { finish() }
