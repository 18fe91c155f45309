# Lays the cases of the given files out for tools/check-cases.sh, each in a folder of its own below `work`, named by
# its number, and prints how many there are. cases/README.md says how a file of cases is written.
#
# The folder of a case holds `name` (where it stands, and its name), `program.f`, and `script`, `data` and `words`
# where the case has them; `answers`, which says what is compared, an answer a line; and `wanted.KIND`, the text of
# each answer that has one.

BEGIN {
    ORS = ""
    hex = "0123456789abcdef"
}

FNR == 1 { begin_file() }

/^=/ {
    if (/^==($| )/) begin_case(substr($0, 4))
    else if (/^=> /) begin_answer(substr($0, 4))
    else if (/^=(words|script|data|each)$/) begin_section(substr($0, 2))
    else if (/^=([0-9]+(-[0-9]+)?)?[|]/) add_marked()
    else if (!/^=#/) fail("no such mark")
    next
}

{ add_plain($0) }

END {
    if (failed) exit 1
    end_file()
    write_cases()
    print count + 0 "\n"
}

function fail(what) {
    printf "%s:%d: %s\n", FILENAME, FNR, what >"/dev/stderr"
    failed = 1
    exit 1
}

# ---- Files, cases and their sections

function begin_file() {
    end_file()
    file = FILENAME
    cases_before = count
    name = ""
    section = ""
}

function end_file() {
    end_case()
    if (file != "" && count == cases_before) {
        printf "%s: it holds no case\n", file >"/dev/stderr"
        failed = 1
        exit 1
    }
}

function begin_case(words) {
    end_case()
    if (words != "") name = words
    if (name == "") fail("a case without a name")
    case_line = FNR
    answers = ""
    rows = 0
    split("", pieces)
    begin_section("program")
}

function begin_section(word) {
    if (word != "program" && section == "") fail("a mark before the first case")
    if (word in pieces) fail("one section twice")
    if (word == "each" ? answers == "" : answers != "") fail("=> stands behind the other sections and before =each")
    section = word
    pieces[section] = 0
    empty = 0
}

# `refused N Name at L`, `output`, `output N`, `printed`, `read`, or the first line of a pane.
function begin_answer(words,    kind) {
    if (section == "" || section == "each") fail("=> stands behind its program and before =each")
    kind = words
    sub(/ .*/, "", kind)
    if (kind == "refused") begin_wanted("output", "output 5", refusal(words))
    else if (words ~ /^output [0-9]+$/) begin_wanted("output", words, "")
    else if (words == "output") begin_wanted("output", "output 0", "")
    else if (words == "printed" || words == "read") begin_wanted(words, words, "")
    else if (kind == "source" || kind == "dependences") begin_wanted(kind, kind, words "\n")
    else fail("no such answer")
    closed = kind == "refused" || kind == "read"
}

function begin_wanted(kind, answer, first) {
    section = "wanted." kind
    if (section in pieces) fail("one answer twice")
    pieces[section] = 0
    empty = 0
    answers = answers answer "\n"
    if (first != "") add_piece(first)
}

function refusal(words) {
    if (words !~ /^refused [0-9]+ [A-Za-z]+ at [0-9]+$/) fail("a refusal is `refused N Name at L`")
    return "ped: " words "\n"
}

# ---- Lines

# A line as it stands. Empty lines at the end of an answer and among rows are there for the reader alone.
function add_plain(line) {
    if (section == "") return
    if (line == "" && section ~ /^(wanted|each)/) empty++
    else add(line "\n")
}

# A marked line: `=|`, `=N|` or `=A-B|`, and a text with escapes.
function add_marked(    bar, times, range, first, last, step, line, i) {
    if (section == "") fail("a mark before the first case")
    bar = index($0, "|")
    times = substr($0, 2, bar - 2)
    line = substr($0, bar + 1)
    first = 1
    last = times == "" ? 1 : times + 0
    if (split(times, range, "-") == 2) {
        first = range[1] + 0
        last = range[2] + 0
    }
    step = first <= last ? 1 : -1
    if (line ~ /\\i/) {
        for (i = first; i != last + step; i += step) add(unescaped(line, i))
    } else if (last >= first) {
        add(repeated(unescaped(line, 0), last - first + 1))
    }
}

function repeated(line, times,    out) {
    for (; times > 0; times = int(times / 2)) {
        if (times % 2 == 1) out = out line
        line = line line
    }
    return out
}

function unescaped(line, number,    out, at, c) {
    while ((at = index(line, "\\")) > 0) {
        out = out substr(line, 1, at - 1)
        c = substr(line, at + 1, 1)
        line = substr(line, at + 2)
        if (c == "t") out = out "\t"
        else if (c == "r") out = out "\r"
        else if (c == "n") out = out "\n"
        else if (c == "\\") out = out "\\"
        else if (c == "i") out = out number
        else if (c == "c" && line == "") return out
        else if (c == "x" && line ~ /^[0-9a-f][0-9a-f]/) {
            out = out sprintf("%c", 16 * digit(line, 1) + digit(line, 2))
            line = substr(line, 3)
        } else fail("no such escape")
    }
    return out line "\n"
}

function digit(line, at) {
    return index(hex, substr(line, at, 1)) - 1
}

function add(line) {
    if (section == "each") {
        sub(/\n$/, "", line)
        row[++rows] = line
        row_line[rows] = FNR
        return
    }
    if (section ~ /^wanted/ && closed) fail("a line behind an answer that has none")
    for (; empty > 0; empty--) add_piece("\n")
    add_piece(line)
}

function add_piece(line) {
    piece[section, ++pieces[section]] = line
}

# The text of a section. It is put together of middle-sized parts, since each joining copies its result.
function joined(kind,    i, part, whole) {
    for (i = 1; i <= pieces[kind]; i++) {
        part = part piece[kind, i]
        if (i % 300 == 0) {
            whole = whole part
            part = ""
        }
    }
    return whole part
}

# ---- Cases

function end_case(    kind, i) {
    if (section == "") return
    if (answers == "") fail("the case before has no answer")
    if (("data" in pieces) && !("script" in pieces) && !("words" in pieces)) fail("the case before has data without a script")
    if ("wanted.output" in pieces ? answers ~ /\n./ : ("words" in pieces || "script" in pieces))
        fail("the case before has its whole output as its only answer, or none")
    split("", text)
    for (kind in pieces) if (kind != "each" && kind != "wanted.read") text[kind] = joined(kind)
    if (!("each" in pieces)) add_case(case_line, name, "", "")
    else if (rows == 0) fail("the case before has no row")
    for (i = 1; i <= rows; i++) add_row(row[i], row_line[i])
    section = ""
}

# A row is what stands for `@` in the program, and behind ` => ` what stands for it in the answer, or a refusal.
function add_row(line, number,    at, left, right) {
    at = index(line, " => ")
    left = at > 0 ? substr(line, 1, at - 1) : line
    right = at > 0 ? substr(line, at + 4) : line
    add_case(number, name ": " left, left, right)
}

function add_case(number, words, left, right,    kind, refused) {
    refused = right ~ /^refused /
    count++
    case_text[count, "name"] = file ":" number ": " words "\n"
    case_text[count, "answers"] = refused ? "output 5\n" : answers
    for (kind in text) {
        if (kind !~ /^wanted/) {
            case_text[count, kind == "program" ? "program.f" : kind] = rows > 0 ? filled(text[kind], left) : text[kind]
        } else if (!refused) {
            case_text[count, kind] = rows > 0 ? filled(text[kind], right) : text[kind]
        }
    }
    if (refused) case_text[count, "wanted.output"] = refusal(right)
}

# The text with the line in the place of each `@`.
function filled(whole, line,    out, at) {
    while ((at = index(whole, "@")) > 0) {
        out = out substr(whole, 1, at - 1) line
        whole = substr(whole, at + 1)
    }
    return out whole
}

function write_cases(    key, part, path) {
    if (count == 0) return
    if (system("cd '" work "' && seq 1 " count " | xargs mkdir --") != 0) exit 1
    for (key in case_text) {
        split(key, part, SUBSEP)
        path = work "/" part[1] "/" part[2]
        print case_text[key] >path
        close(path)
    }
}
