#!/usr/bin/env bash
# examples/c/chain.c over the archive, in made rooms with a known delay. ARCHIVE names an archive to take instead of the one that tests/built/examples.sh has made.
set -eu
cd "$(dirname "$0")/../.."
command -v gcc >/dev/null 2>&1 || { echo "integration: left out, gcc is not on the PATH"; exit 0; }
archive=${ARCHIVE:-target/archive/$(uname -m)/libtrimolaveg.a}
[ -e "$archive" ] || tools/archive
mkdir -p target/examples
gcc -std=c99 -O2 -Wall -Wextra -Wpedantic -Werror -Iinclude -o target/examples/rooms tests/integration/rooms.c "$archive" -lm
target/examples/rooms | diff tests/integration/expected - || { echo "integration: the rooms went otherwise than tests/integration/expected" >&2; exit 1; }
echo "integration: the chain in $(grep -vc '^ ' tests/integration/expected) rooms as expected"
