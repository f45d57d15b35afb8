#!/usr/bin/env bash
# What convert_suite must print, told again; ./convert as a person uses it; and where the comparison is built, random recordings of both forms, right and damaged, there and back.
set -eu
cd "$(dirname "$0")/../.."
python3 tests/convert/numbers.py | cmp - crates/convert_suite/stdout
bash tests/convert/try
[ ! -x target/compare/compare ] || target/compare/compare conversions 4209 200 ./convert ./replay
