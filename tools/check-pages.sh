#!/usr/bin/env bash
# Checks the names in docs/DEFINITIONS.md and docs/CONTRACTS.md, and the comments of definitions and of public items.
# tools/definitions.py and tools/contracts.py report what is wrong: a definition without a comment or a source, a public item without
# a comment, or a name on one of these pages that nothing defines. tools/crates-picture says whether the picture of the crates in
# docs/ARCHITECTURE.md is that of crates.txt.
set -eu
cd -- "$(dirname -- "${BASH_SOURCE[0]}")/.."

work=$(mktemp -d)
trap 'rm -rf -- "$work"' EXIT
status=0
for script in tools/definitions.py tools/contracts.py; do
    "$script" --into "$work" || status=1
done
tools/crates-picture --check || status=1
if [ "$status" -eq 0 ]; then
    echo 'pages: as the files say'
fi
exit "$status"
