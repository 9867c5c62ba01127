#!/usr/bin/env bash
# Shows that each wrong caller beside this script is refused, with the error that its first line names,
# and that the right caller is accepted. It works in a temporary folder and changes nothing here.
set -u
here=$(cd "$(dirname "$0")" && pwd)
crate=$(dirname "$here")
top=$(cd "$crate/../.." && pwd)
work=$(mktemp -d)
trap 'rm -rf "$work"' EXIT

mkdir -p "$work/crates/caller/src"
cp -a "$crate" "$work/crates/"
{ grep '^exchange_arena:' "$top/crates.txt"; echo 'caller: exchange_arena'; } > "$work/crates.txt"

failed=0
for caller in "$here"/*.txt; do
    name=$(basename "$caller" .txt)
    want=$(head -n 1 "$caller")
    { echo '#![tactic(auto)]'; tail -n +2 "$caller"; } > "$work/crates/caller/src/lib.rt"
    (cd "$work/crates/caller" && rt check --jobs 1) > "$work/log" 2>&1
    status=$?
    if [ "$want" = '// accepted' ]; then
        [ $status -eq 0 ] && said='accepted' || said=''
    else
        error=${want#// refused: }
        said=$(grep -F "error[$error]" "$work/log" | head -n 1)
        [ $status -ne 0 ] || said=''
    fi
    if [ -n "$said" ]; then
        echo "as it must be: $name: $said"
    else
        failed=$((failed + 1))
        echo "WRONG: $name, wanted '${want#// }', got status $status:"
        tail -n 5 "$work/log"
    fi
done
echo "$failed wrong"
[ "$failed" -eq 0 ]
