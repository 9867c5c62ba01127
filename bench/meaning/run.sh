#!/usr/bin/env bash
# Prints how fast the reference interpreter runs a few programs, and asserts nothing.
set -eu
. "$(dirname "$0")/../lib.sh"
prepare meaning pram_model text_out pram_tokens pram_trees pram_parser pram_names pram_check pram_values write_rules pram_meaning
figures
