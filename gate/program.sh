#!/bin/sh
# program.sh: puts the program into bin/pramc. Where this checkout has just the sources that the program of release/ was proved and built
# of, that takes seconds, and tar, xz and sha256sum. Where it hasn't, the first file that differs is named, and the toolchain's command rt
# proves and builds the program of what is here; where there is no rt, nothing is done.
# program.sh release TO: the first alone, into the file TO.
set -eu
export LC_ALL=C
cd "$(dirname "$0")/.."
sources=release/SOURCES
work=$(mktemp -d)
trap 'rm -rf "$work"' EXIT

stop() {
    echo "$1" >&2
    exit 1
}

# The checksums of what a build reads here of the crates that the release was built of, ordered by name.
sums() {
    for crate in $(sed -n 's,^[0-9a-f]\{64\}  \(crates/[^/]*\)/.*,\1,p' $sources | uniq); do
        for part in src specs proofs args data status stdin stdout; do
            echo "$crate/$part"
        done
    done | while read -r it; do
        [ ! -e "$it" ] || echo "$it"
    done | xargs sh -c 'find HANDLES crates.txt "$@" -type f 2> /dev/null' sh | sort | xargs sha256sum
}

# What is told of the first file that isn't as the release has it, or nothing.
other() {
    sums > "$work/here"
    grep '^[0-9a-f]\{64\}  [Hc]' $sources > "$work/there"
    file=$(sort -k 2 "$work/here" "$work/there" | uniq -u | sed -n '1s/^[0-9a-f]*  //p')
    if [ ! "$file" ]; then
        return
    elif [ ! -e "$file" ]; then
        echo "$file is missing"
    elif grep -q "  $file\$" $sources; then
        echo "$file differs"
    else
        echo "$file is new"
    fi
}

# The program of the release, into a file, if its archive is whole.
unpack() {
    name=$(sed -n 's,^[0-9a-f]\{64\}  \(pramc-[^/]*\)/bin/pramc$,\1,p' $sources)
    mkdir -p "$(dirname "$1")"
    sum=$(sed -n "s,  $name/bin/pramc\$,,p" $sources)
    if ! xz -dc "release/$name.tar.xz" > "$work/archive" 2> /dev/null ||
        ! tar -xOf "$work/archive" "$name/bin/pramc" > "$1.new" 2> /dev/null ||
        [ "$(sha256sum < "$1.new")" != "$sum  -" ]; then
        rm -f "$1.new"
        stop "release/$name.tar.xz is damaged: it doesn't come to the program of $sources (git checkout HEAD -- release brings it back)"
    fi
    chmod 755 "$1.new"
    mv -f "$1.new" "$1"
}

for it in tar xz sha256sum; do
    command -v $it > /dev/null || stop "$it is missing, by which the program of release/ is unpacked and compared"
done
differs="$sources is missing"
if [ -e $sources ]; then
    differs=$(other)
fi
if [ "${1-}" = release ]; then
    [ ! "$differs" ] || stop "$differs: the program of release/ isn't that of these sources"
    unpack "$2"
elif [ ! "$differs" ]; then
    unpack bin/pramc
    echo "bin/pramc is the program that these sources were proved and built to, from release/; make prove does that again"
elif command -v rt > /dev/null; then
    echo "$differs, so the program of release/ isn't that of these sources: they are proved, and built"
    python3 gate/build.py command_main bin/pramc
else
    echo "$differs, so the program of release/ isn't that of these sources." >&2
    echo "To prove and build them, the toolchain's command rt has to be on the path (README.md says which)." >&2
    case $differs in
    *" is new") stop "To have the sources of the release again: rm ${differs% is new}" ;;
    *) stop "To have the sources of the release again: git checkout HEAD -- HANDLES crates.txt crates release" ;;
    esac
fi
