#!/usr/bin/env bash
# Prints how long `read_listing` takes for a listing of 65,536 instructions, and `write_listing` and `verify` for its code,
# beside a plain pass over the bytes, and asserts nothing.
set -eu
. "$(dirname "$0")/../lib.sh"
libraries=itoa prepare listing pram_model text_out pram_values write_rules address_map superstep_instructions superstep_listing superstep_machine bsp_verify
figures
