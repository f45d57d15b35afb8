#!/usr/bin/env bash
# ./parts as a person uses it; and where the comparison is built, random pairs of logs beside the referee.
set -eu
cd "$(dirname "$0")/../.."
bash tests/parts/try
[ ! -x target/compare/compare ] || target/compare/compare parts 4207 200 ./parts
