#!/usr/bin/env bash
# Makes the stored vectors again from the unchanged Rust original and holds them to the stored ones, byte for byte.
# Where the original is not at hand this is left out: the suites that replay the vectors need no Rust.
set -eu
cd "$(dirname "$0")/.."
built=0
compare/build || built=$?
[ "$built" != 3 ] || exit 0
[ "$built" = 0 ] || exit "$built"

made=target/compare/vectors
rm -rf "$made"
hold() { # what is made, and the folder where it is stored
  target/compare/compare vectors "$1" 1 "$made/$1" 2>/dev/null
  for file in "$made/$1"/*; do
    stored=$2/$(basename "$file")
    case $1/${file##*/} in parts/logs | replay/verdicts) stored=$2/../stdout ;; esac # what parts_suite and replay_suite must write
    cmp -s "$file" "$stored" || { echo "vectors: $stored is not what the original gives" >&2; exit 1; }
  done
}
for what in tracker ring scan fine replay parts; do
  hold "$what" "crates/${what}_suite/data"
done
hold demo demo
target/compare/compare replay demo/second/events demo/far demo/near | cmp -s - demo/second/log || { echo "vectors: demo/second/log is not what the original gives" >&2; exit 1; }
echo "vectors: tracker, ring, scan, fine, replay, parts and demo are what the original gives"
