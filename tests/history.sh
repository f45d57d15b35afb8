#!/usr/bin/env bash
# When the tracker gives up (request m): the request's sentences beside the unchanged track.rs over random histories, and the worked examples of docs/WHY-IT-GAVE-UP.md
# as the original logs them. Where the original is not at hand this is left out.
set -eu
cd "$(dirname "$0")/.."
built=0
compare/build || built=$?
[ "$built" != 3 ] || exit 0
[ "$built" = 0 ] || exit "$built"

target/compare/compare histories 1 20000
python3 tests/why.py target/compare/compare replay
