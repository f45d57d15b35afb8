#!/usr/bin/env bash
# The stored vectors of crates/floats_suite are what libmpfr gives: makes them again, where libmpfr is at hand, and compares.
set -eu
cd "$(dirname "$0")/.."
work=$(mktemp -d)
trap 'rm -rf "$work"' EXIT

if ! echo '#include <mpfr.h>' | cc -E - >/dev/null 2>&1; then
  echo "float vectors: no C compiler with libmpfr here (Debian: libmpfr-dev), so the stored files are run but not made again"
  exit 0
fi
cc -O2 -Wall -Wextra -Werror -o "$work/make_vectors" tests/floats/make_vectors.c -lmpfr -lgmp
"$work/make_vectors" "$work"
for file in narrowing.bin square_root.bin; do
  cmp "$work/$file" "crates/floats_suite/data/$file"
done
echo "float vectors: the stored files are what libmpfr gives"
