#!/usr/bin/env bash
# The archive that firmware links, for the processor of this machine (tools/archive): proves and writes it, builds the programs of examples/ over it, runs them and compares what they print;
# then, where the Rust original is at hand, holds the whole face beside it in a short run. ARCHIVE names an archive to take instead, as compare/build has it.
set -eu
cd "$(dirname "$0")/../.."

archive=${ARCHIVE:-}
if [ -z "$archive" ]; then
  tools/archive all
  archive=target/archive/$(uname -m)/libtrimolaveg.a
fi
built=target/examples
mkdir -p "$built"

shown=
try() { # a program's name, and where it stands what it prints
  "$built/$1" | cmp - "examples/$2" || { echo "examples: $1 printed something else than examples/$2" >&2; exit 1; }
  shown="$shown $1"
}
if command -v gcc >/dev/null 2>&1; then
  gcc -std=c99 -O2 -Wall -Wextra -Wpedantic -Werror -Iinclude -o "$built/c" examples/c/scan.c "$archive"
  try c expected
  gcc -std=c99 -O2 -Wall -Wextra -Wpedantic -Werror -Iinclude -o "$built/pair" examples/c/pair.c "$archive"
  try pair expected-pair
else
  echo "examples: those in C are left out, gcc is not on the PATH"
fi
command -v rustc >/dev/null 2>&1 || { echo "examples: the one in Rust and the comparison are left out, rustc is not on the PATH"; exit 0; }
rustc --edition 2021 -O -D warnings --crate-name example -C link-arg="$archive" -o "$built/rust" examples/rust/scan.rs
try rust expected
echo "examples:$shown printed what is expected"

made=0
ARCHIVE=$archive compare/build face || made=$?
[ "$made" != 3 ] || exit 0
[ "$made" = 0 ] || exit "$made"
target/compare/face short 1 > target/compare/short.log || { grep -v '^  ' target/compare/short.log >&2; exit 1; }
tail -n 1 target/compare/short.log
target/compare/face differences > target/compare/differences.log || { cat target/compare/differences.log >&2; exit 1; }
tail -n 1 target/compare/differences.log
