#!/usr/bin/env bash
# ./check as a person uses it; and where the comparison is built, random recordings with right and with damaged logs.
set -eu
cd "$(dirname "$0")/../.."
bash tests/check/try
[ ! -x target/compare/compare ] || target/compare/compare checks 4208 200 ./check
