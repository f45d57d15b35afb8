#!/usr/bin/env bash
# The constants of trimolaveg_sizes.h are what the proved length functions answer (tests/sizes/check.c; `tests/built/sizes.sh full` tries every rate with every ceiling), and docs/MEMORY.md is what headers and
# archives say.
set -eu
cd "$(dirname "$0")/../.."
command -v cc >/dev/null 2>&1 || { echo "sizes: left out, there is no C compiler here"; exit 0; }
archive=${ARCHIVE:-target/archive/$(uname -m)/libtrimolaveg.a}
[ -e "$archive" ] || tools/archive all
mkdir -p target/examples
cc -std=c99 -O2 -Wall -Wextra -Wpedantic -Werror -Iinclude -o target/examples/sizes tests/sizes/check.c "$archive"
target/examples/sizes "${1:-}"
tools/memory --hold
