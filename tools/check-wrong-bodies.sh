#!/usr/bin/env bash
# Checks that each wrong body of crates/*/wrong/ and each must-fail edit can be applied: that each text which it changes is in its
# file exactly once, and that `tools/wrong-bodies --table` makes a page of them. And checks tools/wrong-bodies itself, over a script that stands in for the toolchain. It tries no body: tools/wrong-bodies does, by hand, and
# the gate tries those of must-fail/.
set -eu
cd -- "$(dirname -- "${BASH_SOURCE[0]}")/.."

work=$(mktemp -d)
trap 'rm -rf -- "$work"' EXIT
status=0
fail() {
    printf 'wrong bodies: %s\n' "$1"
    status=1
}

tools/wrong-bodies --applies || status=1
tools/wrong-bodies --table --into "$work" || status=1

# A repository with one crate. The toolchain's stand-in answers by the number that the body returns.
mkdir -p "$work/bin" "$work/one/tools" "$work/one/crates/low/src" "$work/one/crates/low/wrong"
cp tools/wrong-bodies "$work/one/tools/"
cat >"$work/bin/rt" <<'END'
#!/usr/bin/env bash
printf '%s\n' "$*" >>"$RT_WORDS"
case $(cat src/lib.rt) in
    *' 2 '*)
        echo 'note: src/lib.rt:3:5: `search` found no proof (`one-ensures`)'
        echo 'note: src/lib.rt:3:5: it is not proved that `ensures one` holds (`one-ensures`)'
        echo 'fn low::one: not proved'
        echo 'only=1 proved=0'
        exit 1
        ;;
    *' 3 '*)
        echo 'error[E0425]: cannot find value `x` in this scope'
        exit 1
        ;;
    *' 4 '*) exit 3 ;;
esac
echo 'only=1 proved=1'
END
chmod +x "$work/bin/rt"
cd -- "$work/one"
printf 'low:\n' >crates.txt
: >HANDLES
printf '//! Low.\n\nfn one() -> u64 { 1 } // one\n' >crates/low/src/lib.rt
cp crates/low/src/lib.rt "$work/"
body() {
    printf 'body: %s\nfile: src/lib.rt\nold: %s\nnew: %s\n' "$1" "$2" "$3" >"crates/low/wrong/$1.edit"
}
body two '{ 1 }' '{ 2 }'
body same '{ 1 }' '{ 0+1 }'
body broken '{ 1 }' '{ 3 }'
body killed '{ 1 }' '{ 4 }'
body twice one two
body nowhere '{ 5 }' '{ 6 }'
printf 'body: by a case\ncase: cases/some.cases\n' >crates/low/wrong/case.edit
git init -q .
export RT_WORDS="$work/words"
if PATH="$work/bin:$PATH" tools/wrong-bodies >"$work/said" 2>&1; then
    fail 'a body that is not refused: the status should not be 0'
fi
cat >"$work/wanted" <<'END'
low/broken: BAD EDIT: error[E0425]: cannot find value `x` in this scope
low/case: case: cases/some.cases
low/killed: NOT TRIED: status 3: it said nothing
low/nowhere: BAD EDIT: an old text is in src/lib.rt 0 times, and not once: { 5 }
low/same: NOT REFUSED
low/twice: BAD EDIT: an old text is in src/lib.rt 2 times, and not once: one
low/two: refused: src/lib.rt:3:5: it is not proved that `ensures one` holds (`one-ensures`)
wrong bodies: 1 refused, 1 case, 1 NOT REFUSED, 3 BAD EDIT, 1 NOT TRIED
END
diff -u -- "$work/wanted" "$work/said" || fail 'what a run says is not as wanted'
[ "$(sort -u "$work/words")" = 'check --only one' ] || fail 'each check should be that of the function'
cmp -s -- "$work/lib.rt" crates/low/src/lib.rt || fail 'a run should leave the sources as they are'
tools/wrong-bodies --applies >"$work/said" && fail 'edits that cannot be applied: --applies should fail'
[ "$(wc -l <"$work/said")" -eq 2 ] || fail '--applies should name two edits'
rm crates/low/wrong/{same,broken,killed,twice,nowhere}.edit
PATH="$work/bin:$PATH" tools/wrong-bodies low/two low/case >/dev/null || fail 'bodies that are refused: the status should be 0'
tools/wrong-bodies --table
# shellcheck disable=SC2016
grep -qF '| two | `one` | refused: it is not proved that `ensures one` holds (`one-ensures`) |' out/pages/wrong-bodies.md ||
    fail 'the table should say what the last try found'
printf '// More.\n' >>crates/low/src/lib.rt
tools/wrong-bodies --table
grep -qF '(before a later change)' out/pages/wrong-bodies.md || fail 'the table should say that the sources have changed'

if [ "$status" -eq 0 ]; then
    echo 'wrong bodies: as wanted'
fi
exit "$status"
