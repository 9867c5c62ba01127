#!/usr/bin/env bash
# Prints how long it takes to run a small program on every input of a scope, and asserts nothing.
set -eu
. "$(dirname "$0")/../lib.sh"
# shellcheck disable=SC2046
prepare explore $(below scopes pram_parser)
figures
