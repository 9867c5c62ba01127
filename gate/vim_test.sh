#!/usr/bin/env bash
# vim_test.sh PROGRAM: checks programs in Vim by :make, and compares its quickfix list with what is wrong in them. Where Vim is missing it
# comes from Debian's packages.
set -eu -o pipefail
top=$(cd "$(dirname "$0")/.." && pwd)
program=$(realpath "$1")
command -v vim > /dev/null || apt-get install -y vim > /dev/null
work=$(mktemp -d)
trap 'rm -rf "$work"' EXIT
mkdir "$work/bin" "$work/a folder"
ln -s "$program" "$work/bin/pramc"
cd "$work/a folder"

# list FILE: the quickfix list behind :make, a line an entry: file, line, column, type and text.
list() {
    PATH=$work/bin:$PATH timeout 60 vim -Nu NONE -es \
        --cmd "set runtimepath^=$top/editors/vim" --cmd 'filetype plugin on' -c "edit $1" -c 'silent make!' \
        -c 'call writefile(map(filter(getqflist(), "v:val.valid"), {_, it -> join([bufname(it.bufnr), it.lnum, it.col, it.type, it.text], "|")}), "list")' \
        -c 'qall!' < /dev/null > /dev/null 2>&1 || true
    cat list
}

# wants FILE TEXT: that the list is this text.
wants() {
    local found
    found=$(list "$1")
    if [ "$found" != "$2" ]; then
        printf '%s: the list is\n%s\nand not\n%s\n' "$1" "$found" "$2"
        exit 1
    fi
}

printf 'rule erew;\nprocs 4;\nvar total;\nbegin\n  total := 1;\n  totl := 2;\nend\n' > unknown.pram
wants unknown.pram 'unknown.pram|6|3|e|"totl" is not declared here; did you mean "total"? [E6]'
printf 'rule erew;\nprocs 4;\nvar x;\nbegin\n  while x < 1 do\n    x := x + 1;\nend' > open.pram
wants open.pram 'open.pram|7|4|e|the text ends here, and the program has no "end": that of line 7 ends the "while" of line 5 [E4]
open.pram|5|3|n|it begins here'
printf 'rule erew;\nprocs 4;\nvar x;\nbegin\n  x := 1;\nend\n' > right.pram
wants right.pram ''
echo "the quickfix list of Vim has what is wrong in 2 of 3 programs, and nothing of the third"
