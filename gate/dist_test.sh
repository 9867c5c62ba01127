#!/usr/bin/env bash
# dist_test.sh [PROGRAM]: makes the archive and the package of the program (bin/pramc) twice, which gives the same bytes; unpacks the one
# and installs the other in an empty root, runs the first example, reads the man page and completes a command there, and takes the package
# away again, with which nothing of it is left. The wheel is installed by pip, or unpacked where there is no pip, and its program is run from
# Python and from the shell with nothing in PATH. All is in a temporary folder.
set -eu -o pipefail
top=$(cd "$(dirname "$0")/.." && pwd)
program=$(realpath "${1:-$top/bin/pramc}")
work=$(mktemp -d)
trap 'rm -rf "$work"' EXIT

fail() {
    echo "WRONG: $1"
    exit 1
}

# used SHARE EXAMPLES COMMAND..: uses what lies below SHARE; COMMAND is the program, which finds EXAMPLES.
used() {
    local share=$1 examples=$2
    "${@:3}" run "$examples/sum.pram" > "$work/printed" || fail "the first example ends with status $?"
    cmp "$work/printed" "$top/examples/sum.out" || fail "the first example prints something else"
    MANPAGER=cat MANWIDTH=80 man -l "$share"/man/man1/pramc.1* > "$work/manual" 2> "$work/warnings" || fail "the man page can't be read"
    [ ! -s "$work/warnings" ] || fail "the man page: $(cat "$work/warnings")"
    grep -q '^NAME' "$work/manual" && grep -q 'pramc rules' "$work/manual" || fail "the man page lacks its parts"
    [ "$(completed "$share/bash-completion/completions/pramc")" = rules ] || fail "the completion of rul is not rules"
}

# What bash completes `pramc rul` to, by the file.
completed() {
    bash -c 'compopt() { :; }; . "$1"; complete -p pramc > /dev/null
        COMP_WORDS=(pramc rul); COMP_CWORD=1; _pramc; echo "${COMPREPLY[@]}"' "" "$1"
}

# The C library and its loader in the root, so that the program can be run in it; a record of the library, on which the package depends.
laid_out() {
    local library
    mkdir -p "$work/root/var/lib/dpkg/"{info,updates} "$work/root/usr/bin"
    for library in $(ldd "$program" | grep -o '/[^ ]*'); do
        install -D "$library" "$work/root$library"
    done
    printf 'Package: libc6\nStatus: install ok installed\nArchitecture: amd64\nMaintainer: none\nVersion: %s\nDescription: none\n\n' \
        "$(getconf GNU_LIBC_VERSION | cut -d ' ' -f 2)" > "$work/root/var/lib/dpkg/status"
}

installer() {
    dpkg --root="$work/root" --force-not-root --force-bad-path --log="$work/log" "$@" > "$work/said" 2>&1 || fail "dpkg $1: $(cat "$work/said")"
}

# The command by which the installed program runs with the root as its whole system, where this machine lets one.
in_root() {
    local way
    for way in "chroot" "unshare -r chroot"; do
        if $way "$work/root" /usr/bin/pramc --version > /dev/null 2>&1; then
            echo "$way $work/root /usr/bin/pramc"
            return
        fi
    done
}

left() {
    (cd "$work/root" && find . -path ./var/lib/dpkg -prune -o \( -type f -o -path '*pramc*' \) -print | sort)
}

archive() {
    local name
    tar -C "$work" -xf "$work"/one/*.tar.xz
    name=$(basename "$work"/one/*.tar.xz .tar.xz)
    cd "$work/$name"
    used share examples bin/pramc
    cmp LICENSE "$top/LICENSE"
    for it in README.md docs/TUTORIAL.md share/vim/vimfiles/syntax/pram.vim share/pramc/textmate/package.json; do
        [ -s "$it" ] || fail "the archive lacks $it"
    done
    cd "$top"
    echo "$name: unpacked and used"
}

package() {
    local before way share=$work/root/usr/share
    laid_out
    before=$(left)
    installer --install "$work"/one/*.deb
    way=$(in_root)
    if [ -n "$way" ]; then
        used "$share" /usr/share/doc/pramc/examples $way
    else
        used "$share" "$share/doc/pramc/examples" "$work/root/usr/bin/pramc"
    fi
    cmp "$share/doc/pramc/copyright" "$top/LICENSE"
    installer --verify pramc
    [ ! -s "$work/said" ] || fail "installed files differ: $(cat "$work/said")"
    installer --purge pramc
    [ "$(left)" = "$before" ] || fail "what is left: $(diff <(echo "$before") <(left))"
    echo "$(basename "$work"/one/*.deb): installed, used ${way:+in a root of its own }and taken away"
}

# The wheel's package in an empty folder.
wheel_placed() {
    if python3 -m pip --version > /dev/null 2>&1; then
        PIP_ROOT_USER_ACTION=ignore python3 -m pip install -q --no-index --no-deps --no-warn-script-location --disable-pip-version-check \
            --target "$work/wheel" "$work"/one/*.whl || fail "pip doesn't install the wheel"
        [ "$(PYTHONPATH=$work/wheel "$work/wheel/bin/pramc" --version)" = "$("$program" --version)" ] ||
            fail "the wheel's command is another one"
    else
        python3 -m zipfile -e "$work"/one/*.whl "$work/wheel"
        chmod 755 "$work/wheel/pramc/bin/pramc"
    fi
}

# What Python says by the wheel's package alone.
by_wheel() {
    local python
    python=$(command -v python3)
    (cd "$work" && env -i PYTHONPATH="$work/wheel" "$python" -B -c "$1" "${@:2}")
}

wheel() {
    wheel_placed
    cmp "$program" "$work/wheel/pramc/bin/pramc" || fail "the wheel has another program"
    by_wheel 'import sys, pathlib, pramc; print(pramc.run(pathlib.Path(sys.argv[1])))' "$top/examples/sum.pram" > "$work/printed"
    cmp "$work/printed" "$top/examples/sum.out" || fail "the first example prints something else from Python"
    [ "$(by_wheel 'import pramc; print(pramc.program())')" = "$work/wheel/pramc/bin/pramc" ] || fail "the wheel's package finds another program"
    echo "$(basename "$work"/one/*.whl): installed and used from Python"
}

bash "$top/gate/dist.sh" "$program" "$work/one"
bash "$top/gate/dist.sh" "$program" "$work/two" > /dev/null
diff -r "$work/one" "$work/two" || fail "the same sources give other bytes"
archive
if compgen -G "$work/one/*.deb" > /dev/null; then
    package
fi
if compgen -G "$work/one/*.whl" > /dev/null; then
    wheel
fi
