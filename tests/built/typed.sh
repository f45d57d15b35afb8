#!/usr/bin/env bash
# Every call of trimolaveg_typed.h over the archive for this machine.
set -eu
cd "$(dirname "$0")/../.."
command -v cc >/dev/null 2>&1 || { echo "typed: left out, there is no C compiler here"; exit 0; }
archive=${ARCHIVE:-target/archive/$(uname -m)/libtrimolaveg.a}
[ -e "$archive" ] || tools/archive all
mkdir -p target/examples
cc -std=c99 -O2 -Wall -Wextra -Wpedantic -Werror -Iinclude -o target/examples/typed tests/typed/check.c "$archive"
target/examples/typed
