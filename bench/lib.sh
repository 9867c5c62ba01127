# What the benches share. Each builds its main.txt as a program over copies of the crates in a temporary folder, so that the
# gate need not. The copies take along what earlier checks kept; where there is nothing of theirs, the crates are proved first.
top=$(cd "$(dirname "${BASH_SOURCE[0]}")/.." && pwd)
work=$(mktemp -d)
trap 'rm -rf "$work"' EXIT

# below CRATE..: these crates and all of the repository that they use.
below() {
    python3 - "$top/crates.txt" "$@" <<'EOP'
import sys

used = {}
for line in open(sys.argv[1]):
    name, colon, rest = line.split("#")[0].partition(":")
    if colon:
        used[name.split()[0]] = rest.split()
todo, seen = sys.argv[2:], set()
while todo:
    name = todo.pop()
    if name in used and name not in seen:
        seen.add(name)
        todo += used[name]
print(*sorted(seen))
EOP
}

# prepare FOLDER CRATE..: lays out the program of that bench, which stands on these crates, and on `libraries` if that is set.
prepare() {
    here=$top/${bench:-bench}/$1
    program=$work/crates/bench_$1
    mkdir -p "$program/src"
    cp "$top/HANDLES" "$work/"
    cp "$here/main.txt" "$program/src/main.rt"
    for crate in "${@:2}"; do
        cp -a "$top/crates/$crate" "$work/crates/"
        grep "^$crate[: ]" "$top/crates.txt"
    done > "$work/crates.txt"
    echo "bench_$1: ${*:2} ${libraries:-} anyhow" >> "$work/crates.txt"
}

# figures WORD..: proves the program, runs it with these words, and prints its figures, or why there are none.
figures() {
    cd "$program"
    if ! rt run --jobs 1 "$@" > "$work/figures" 2> "$work/log"; then
        tail -n 40 "$work/figures" "$work/log"
        exit 1
    fi
    cat "$work/figures"
}
