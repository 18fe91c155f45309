#!/usr/bin/env bash
# Checks tools/install: installs the built program and pedx below a folder, calls both there from another folder, and removes them. A file
# of somebody else in the same folder has to stay, and nothing else may. The program is the one that .ci/run or ./prove has built.
#
#   tools/check-install.sh [--unproved]     also takes a program that ./ped has built without proof
set -eu
cd -- "$(dirname -- "${BASH_SOURCE[0]}")/.."
top=$PWD

work=$(mktemp -d)
trap 'rm -rf -- "$work"' EXIT
status=0
fail() {
    printf 'install: %s\n' "$1"
    status=1
}

# A name with a blank, since users have such names.
prefix="$work/a prefix"
mkdir -p "$prefix/bin"
echo 'of somebody else' >"$prefix/bin/other"

tools/install "$@" "$prefix" >"$work/said" || fail 'the program could not be installed'
tools/install "$@" "$prefix" >"$work/said" || fail 'the program could not be installed a second time'
cp examples/steps/squares.f "$work/"
cd -- "$work"
unset PEDX_PED
"$prefix/bin/ped" show squares.f >shown || fail 'the installed ped does not answer'
cmp -s -- shown <("$top/ped" show squares.f 2>/dev/null) || fail 'the installed ped answers otherwise'
[ "$(env PATH="$prefix/bin:$PATH" pedx loops squares.f | wc -l)" -gt 2 ] || fail 'the installed pedx does not answer'
"$prefix/bin/pedx" --version >/dev/null || fail 'the installed pedx has no version'
[ -f "$prefix/share/man/man1/pedx.1" ] || fail 'the manual page is not there'

cd -- "$top"
tools/install --remove "$prefix" || fail 'the program could not be removed'
[ "$(find "$prefix" -type f)" = "$prefix/bin/other" ] || fail 'after removing, other files should be there alone'
[ ! -e "$prefix/lib" ] && [ ! -e "$prefix/share" ] || fail 'after removing, no empty folders should be left'
! tools/install --remove "$prefix" 2>/dev/null || fail 'removing what is not there should fail'
! tools/install 2>/dev/null || fail 'a call without a prefix should fail'

mkdir -p "$work/stage"
DESTDIR=$work/stage tools/install "$@" /usr >/dev/null || fail 'a staged installation should work'
[ -x "$work/stage/usr/lib/ped/ped" ] && [ -L "$work/stage/usr/bin/ped" ] || fail 'a staged installation should be below DESTDIR'

if [ "$status" -eq 0 ]; then
    echo 'install: as wanted'
fi
exit "$status"
