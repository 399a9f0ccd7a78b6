# How a clone keeps its two programs, for count-office and tools/build: both set `here` to the clone's folder, and read this file.
#
# out/BUILT-FROM says of which sources the programs in out/ are. out/compared is empty: its time is two seconds before the two were last
# compared. A file that was written, renamed or moved since, or its folder, is newer, by the time of change that nobody can set.
# shellcheck shell=sh disable=SC2154

out=$here/out

fail() {
    printf 'count-office: %s\n' "$1" >&2
    exit 4
}

# The digest of the sources of the programs: the code of the crates, and what is promised of it. Proofs and tests change neither.
digest() {
    (export LC_ALL=C && cd "$here" &&
        find crates/*/src crates/*/specs crates.txt -path '*_tests/*' -prune -o -type f -name '*.*t' -print0 | sort -z |
        xargs -0 sha256sum) | sha256sum | cut -d ' ' -f 1
}

# Whether the programs of a folder are of the sources that have this digest.
is_of() {
    grep -qsx "sources: $2" "$1/BUILT-FROM"
}

# One call at a time changes out/.
lock() {
    mkdir -p "$out" 2>/dev/null
    if [ -w "$out" ]; then exec 9>"$out/lock" && flock 9; fi
}

# Makes an empty folder for new programs.
begin() {
    { rm -rf "$out/new" && mkdir -p "$out/new"; } || fail "cannot write to $out: make the first call as a user who can"
}

# Puts the programs of out/new in their place. BUILT-FROM is removed first and put last, so it is never next to programs of other sources.
put() {
    "$out/new/count-office" --version >/dev/null || fail "this machine can't run $out/new/count-office, which is for Linux on x86-64"
    { sync "$out"/new/* && rm -f "$out/BUILT-FROM" "$out/compared" && mv -f "$out/new/count-office" "$out/new/check-count" "$out" &&
        mv "$out/new/BUILT-FROM" "$out" && rmdir "$out/new"; } || fail "the programs couldn't be put into $out"
}

# Unpacks the programs of release/.
unpack() {
    sum=$(grep '\.tar\.xz$' "$here/release/SHA256SUMS")
    archive=${sum##* }
    (cd "$here/release" && echo "$sum" | sha256sum --status --check -) 2>/dev/null ||
        fail "the archive in $here/release is missing or damaged: get it again, or type $here/tools/build"
    begin
    tar -xmJf "$here/release/$archive" -C "$out/new" --strip-components=3 "${archive%.tar.xz}/lib/count-office" ||
        fail "$here/release/$archive couldn't be unpacked, which needs tar, xz and room on the disk"
    put
    echo "count-office: this is $archive, which was made from these sources; tools/build proves and builds them here" >&2
}

# Makes sure that out/ has the programs of these sources. A source that changes meanwhile, or changed within the last two seconds, is newer
# than out/compared: then the next call compares them once more.
make_ready() {
    lock
    if [ -w "$out" ]; then touch "$out/compared.new" && touch -r "$out/compared.new" -d '-2 seconds' "$out/compared.new"; fi
    own=$(digest)
    if ! { [ -x "$out/count-office" ] && [ -x "$out/check-count" ] && is_of "$out" "$own"; }; then
        is_of "$here/release" "$own" ||
            fail "no program here was built from these sources: type $here/tools/build, which needs rt and takes half an hour or more"
        unpack
    fi
    if [ -w "$out" ]; then mv "$out/compared.new" "$out/compared"; fi
    return 0
}
