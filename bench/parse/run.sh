#!/usr/bin/env bash
# Prints how fast `parse` reads a text of 1 MiB and `print_tree` writes its tree, beside a plain pass over the bytes, and
# asserts nothing.
set -eu
. "$(dirname "$0")/../lib.sh"
prepare parse pram_model text_out pram_tokens pram_trees pram_parser pram_printer
figures
