#!/usr/bin/env bash
# Checks that tools/check-cases.sh fails where it should: on small files of cases in a folder of its own, over a
# script that stands in for the program.
set -eu
cd -- "$(dirname -- "${BASH_SOURCE[0]}")/.."
check=$PWD/tools/check-cases.sh

work=$(mktemp -d)
trap 'rm -rf -- "$work"' EXIT
cd -- "$work"

# The stand-in shows each program as itself, numbers its assignments, and refuses a line `?`. Of a session it writes
# the words, the script and the data.
cat >program <<'END_OF_PROGRAM'
#!/usr/bin/awk -f
BEGIN {
    if (ARGV[1] == "session") {
        for (i = 1; i < ARGC; i++) print ARGV[i]
        for (i = 3; i < ARGC; i += 2) while ((getline line < ARGV[i]) > 0) print "| " line
        exit 1
    }
    if (ARGV[1] != "show" || ARGC != 3) {
        print "usage: " ARGC - 1 " words"
        exit 2
    }
    while ((getline line < ARGV[2]) > 0) {
        text[++lines] = line
        if (line == "?") refused = lines
    }
    if (refused) {
        print "ped: refused 7 Syntax at " refused
        exit 5
    }
    print "source " lines
    for (i = 1; i <= lines; i++) {
        if (text[i] ~ /=/) printf "%5d %4d %s\n", i, ++statement, text[i]
        else printf "%5d      %s\n", i, text[i]
    }
    print "dependences 0"
    exit 0
}
END_OF_PROGRAM
chmod +x program

failed=0
say() {
    printf 'check-cases: %s\n' "$1"
    failed=1
}

# The cases on standard input pass.
passes() {
    cat >some.cases
    if ! "$check" --program program some.cases >said || [ "$(tail -n 1 said)" != "cases: $2 passed, 0 failed" ]; then
        say "$1: they should pass, and it says"
        sed 's/^/    /' said
    fi
}

# The cases on standard input fail, and the last line is this.
fails() {
    cat >some.cases
    if "$check" --program program some.cases >said 2>&1; then
        say "$1: it should fail, and it passes"
    elif [ "$(tail -n 1 said)" != "$2" ]; then
        say "$1: it should end with '$2', and it says"
        sed 's/^/    /' said
    fi
}

passes 'each kind of answer' 13 <<'END_OF_CASES'
What stands here is no case.

== what is printed, its pane, and that it is read
C
      K = 1

      END
=> printed
C
      K = 1

      END
=> source 4
    1      C
    2    1       K = 1
    3      
    4            END
=> dependences 0

==
=# The answer has no text.
      END
=> read

== a refusal
      K = 1
?
=> refused 7 Syntax at 2

== the whole output
      END
=> output
source 1
    1            END
dependences 0

== other words
=words
show

program.f
=> output 2
usage: 3 words

== a session
      END
=script
deps 1

=data
1 2
=> output 1
session
program.f
script
--data
data
| deps 1
| 
| 1 2

== rows
@
      @
=> printed
@
      @
=each
K = 1
=|L = 1\n      M = 2
K = 1 => K = 1

? => refused 7 Syntax at 1

== marks
=|\tA\r\\\x7e\xff
=3|B\c
=|
=8-10|C\i
=2-1|D\i\n
=|      END\c
=> printed
=|\x09A\r\x5c~\xff
BBB
C8
C9
C10
D2

D1

      END

== rows of one answer
@
?
=> refused 7 Syntax at 2
=each
      K = 1
C
END_OF_CASES

one='cases: 0 passed, 1 failed'
fails 'another printed line' "$one" <<'END_OF_CASES'
== K
      K = 1
=> printed
      K = 2
END_OF_CASES
for line in '    -      K = 2' '    +      K = 1'; do
    grep -qxF -- "$line" said || say "another printed line: '$line' should be shown"
done
fails 'a printed line too many' "$one" <<'END_OF_CASES'
== K
      K = 1
=> printed
      K = 1
      END
END_OF_CASES
fails 'another row of the source pane' "$one" <<'END_OF_CASES'
== K
      K = 1
=> source 1
    1            K = 1
END_OF_CASES
fails 'another dependence pane' "$one" <<'END_OF_CASES'
== K
      K = 1
=> dependences 1
1.1 1.1 K output 1 (<) (*) proven
END_OF_CASES
fails 'a refusal in place of a pane' "$one" <<'END_OF_CASES'
== K
?
=> read
END_OF_CASES
fails 'another line of a refusal' "$one" <<'END_OF_CASES'
== K
?
=> refused 7 Syntax at 2
END_OF_CASES
fails 'a pane in place of a refusal' "$one" <<'END_OF_CASES'
== K
      K = 1
=> refused 7 Syntax at 1
END_OF_CASES
fails 'another status' "$one" <<'END_OF_CASES'
== K
      END
=> output 1
source 1
    1            END
dependences 0
END_OF_CASES
fails 'an output without its last line feed' "$one" <<'END_OF_CASES'
== K
      END
=> output
source 1
    1            END
=|dependences 0\c
END_OF_CASES
fails 'a row of several' 'cases: 2 passed, 1 failed' <<'END_OF_CASES'
== K
@
=> printed
@
=each
K = 1 => K = 1
K = 1 => K = 2
K = 2 => K = 2
END_OF_CASES
fails 'a case of several' 'cases: 2 passed, 1 failed' <<'END_OF_CASES'
== K
K = 1
=> read
==
?
=> read
==
K = 1
=> read
END_OF_CASES

none='cases: none was run: a file of cases has no such form'
fails 'a file without cases' "$none" <<'END_OF_CASES'
Nothing but this.
END_OF_CASES
fails 'an empty file' 'cases: none was run: the files hold no case' </dev/null
fails 'a case without an answer' "$none" <<'END_OF_CASES'
== K
      END
== L
      END
=> read
END_OF_CASES
fails 'a case without rows' "$none" <<'END_OF_CASES'
== K
      @
=> read
=each
END_OF_CASES
fails 'a line behind an answer that has none' "$none" <<'END_OF_CASES'
== K
      END
=> refused 7 Syntax at 1
      END
END_OF_CASES
fails 'another mark' "$none" <<'END_OF_CASES'
== K
      END
=print
END_OF_CASES
fails 'another answer' "$none" <<'END_OF_CASES'
== K
      END
=> prints
END_OF_CASES

# The stand-in, changed so that it prints something else when it shows what it has printed.
sed 's/"dependences 0"/"dependences " (lines == 1 ? 0 : 1)/' program >other
chmod +x other
printf '== K\n      END\n=> read\n' >some.cases
"$check" --program other some.cases >said || say 'a program that is shown as itself should pass'
sed 's/print "source " lines/text[1] = text[1] "+"; &/' program >other
"$check" --program other some.cases >said && say 'what is printed is not shown as itself: it should fail, and it passes'

# Files and programs that aren't there.
printf '== K\n      END\n=> read\n' >some.cases
"$check" --program program some.cases missing.cases >said && say 'a missing file: it should fail, and it passes'
"$check" --program program some.cases program >said && say 'a file of another kind: it should fail, and it passes'
"$check" --program missing some.cases >said && say 'a missing program: it should fail, and it passes'
grep -q 'not built' said || say 'a missing program: it should say so'

# In a repository without a built program or without cases nothing is run.
mkdir -p repository/tools repository/crates/ped repository/cases
cp "$check" "${check%/*}/cases.awk" "${check%/*}/program.sh" repository/tools/
touch repository/crates.txt repository/HANDLES
cp some.cases repository/cases/
repository/tools/check-cases.sh >said 2>&1 && say 'a repository without a built program: it should fail, and it passes'
grep -q 'not built' said || say 'a repository without a built program: it should say so'

# Where no files are given, those of cases/faults/ are left out.
mkdir repository/cases/faults
printf '== K\n?\n=> read\n' >repository/cases/faults/some.cases
repository/tools/check-cases.sh --program "$work/program" >said 2>&1 || say 'a repository with cases of other programs: it should pass'
[ "$(tail -n 1 said)" = 'cases: 1 passed, 0 failed' ] || say 'a repository with cases of other programs: these cases should not count'
repository/tools/check-cases.sh --program "$work/program" repository/cases/faults/some.cases >said 2>&1 &&
    say 'a case of cases/faults that is given and differs: it should fail, and it passes'

rm repository/cases/some.cases
repository/tools/check-cases.sh --program "$work/program" >said 2>&1 && say 'a repository without cases: it should fail, and it passes'

if [ "$failed" -eq 0 ]; then
    echo 'check-cases: fails as wanted'
fi
exit "$failed"
