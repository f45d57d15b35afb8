#!/usr/bin/env bash
# examples/host over the archive, on sound files that tests/host/make.py makes, good ones and bad ones: what it tells, in which words it refuses, and its status. How many times the mean a peak is
# depends on the transform at hand and is not compared. Left out where its libraries are not there. ARCHIVE names an archive to take instead of the one that tests/built/examples.sh has made.
# `tests/built/host.sh --write` stores what is told.
set -eu
cd "$(dirname "$0")/../.."
for need in gcc python3 pkg-config; do command -v $need >/dev/null 2>&1 || { echo "host: left out, $need is not on the PATH"; exit 0; }; done
pkg-config --exists fftw3f sndfile || { echo "host: left out, FFTW or libsndfile is not installed (Debian: libfftw3-dev, libsndfile1-dev)"; exit 0; }
archive=${ARCHIVE:-target/archive/$(uname -m)/libtrimolaveg.a}
[ -e "$archive" ] || tools/archive
room=target/host
mkdir -p "$room"
gcc -std=c99 -O2 -Wall -Wextra -Wpedantic -Werror -Iinclude -o "$room/host" examples/host/*.c "$archive" $(pkg-config --cflags --libs fftw3f sndfile) -lm
python3 tests/host/make.py "$room/sounds"
told() {
  while read -r words; do
    echo "host $words"
    (cd "$room/sounds" && ../host $words 2>&1 && echo "status 0" || echo "status $?") | sed 's/, [0-9.]* times the mean//'
  done <tests/host/cases
}
[ "${1:-}" != --write ] || { told >tests/host/expected; exit 0; }
told | diff tests/host/expected - || { echo "host: it told something else than tests/host/expected" >&2; exit 1; }
echo "host: $(wc -l <tests/host/cases) calls, good and bad, told what is expected"
