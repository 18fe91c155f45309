# shellcheck shell=bash
# Which built programs belong to the sources: read by ./ped, ./prove, .ci/run and the checks, by this file's full path.
#
# A built program stands in out/ under the checksum of the sources that it was made from. So it never
# goes stale, and launches at the same time don't disturb one another. `rm -r out` is always safe.

# The top of the repository.
top=${BASH_SOURCE[0]%/tools/*}

# Lists what the programs are made from, with a NUL after each path. The toolchain reads no other endings and no hidden
# names. So what editors and merges leave beside a source doesn't count.
list_sources() {
    find crates.txt HANDLES crates/*/src crates/*/specs crates/*/proofs -name '.*' -prune -o -type f \
        \( -path crates.txt -o -path HANDLES -o -name '*.rt' -o -name '*.antt' \) -print0
}

# Writes the checksum of all that the programs are made from.
sources_sum() (
    set -o pipefail
    cd -- "$top" && list_sources | LC_ALL=C sort -z | xargs -0 sha256sum | sha256sum | cut -c1-64
)

# Writes where a proved program of the sources with this checksum stands: ped, or the one of the crate that is named.
program_of() {
    printf '%s\n' "$top/out/${2-ped}-$1"
}

# Writes where the program ped of these sources stands that was built without proof. No crate has such a name.
unproved_of() {
    printf '%s\n' "$top/out/UNPROVED-ped-$1"
}

# Whether a file is a program, and not cut off. Linkers put the table of sections at the end of an ELF file. The header
# for 64 bits says where the table begins (byte 40), how long an entry is (58), and how many there are (60). A script has
# to begin as one, and may be cut off.
is_program() {
    [ -f "$1" ] && [ -x "$1" ] || return 1
    local -a byte
    read -r -d '' -a byte < <(od -An -v -tx1 -N64 -- "$1") || true
    [ "${byte[*]:0:2}" != '23 21' ] || return 0
    [ "${#byte[*]}" -eq 64 ] && [ "${byte[*]:0:6}" = '7f 45 4c 46 02 01' ] || return 1
    local table=0 at
    for at in {47..40}; do
        table=$((table << 8 | 16#${byte[at]}))
    done
    [ $((table + 16#${byte[59]}${byte[58]} * 16#${byte[61]}${byte[60]})) -le "$(wc -c <"$1")" ]
}

# Keeps the program that the toolchain has proved and built last as that of the sources with this checksum.
keep_program() {
    local name=${2-ped} part="$top/out/part-$$"
    mkdir -p -- "$top/out" || return
    cp -- "$top/crates/$name/out/$name" "$part" && mv -f -T -- "$part" "$(program_of "$1" "$name")" && return
    rm -f -- "$part"
    return 1
}
