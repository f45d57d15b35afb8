#!/usr/bin/env bash
# The table of first guesses in crates/root_table is what tests/floats/guesses.py gives.
set -eu
cd "$(dirname "$0")/.."
python3 tests/floats/guesses.py | cmp - crates/root_table/src/guesses.rt
echo "root table: the stored table is what tests/floats/guesses.py gives"
