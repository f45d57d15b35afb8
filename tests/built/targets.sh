#!/usr/bin/env bash
# The archives for other processors than this machine's, as tests/built/examples.sh had them made: the examples in C, the sizes, the typed calls and a damage run beside the Rust original, built by Debian's cross compiler
# and run under its qemu-user. The Rust runs here; each call of the core goes over a pipe to a program there (compare/remote). `targets.sh long` makes twenty times as many calls.
set -eu
cd "$(dirname "$0")/../.."
many=1
[ "${1:-}" != long ] || many=20
built=target/remote
mkdir -p "$built"

here() { # builds the comparison whose calls all go over a pipe
  python3 compare/remote/generate.py "$built"
  gcc -std=gnu99 -O2 -Wall -Wextra -Werror -Iinclude -Icompare/remote -c -o "$built/here.o" "$built/here.c"
  ar rcs "$built/libhere.a" "$built/here.o"
  FACE=$built/face ARCHIVE=$built/libhere.a compare/build face
}

compare() { # a processor, then what `face` is asked
  local processor=$1
  shift
  REMOTE="qemu-$processor $PWD/$built/there-$processor" "$built/face" "$@" >"$built/log" || { grep -v '^  ' "$built/log" >&2; echo "targets: $processor is different in 'face $*'" >&2; exit 1; }
}

try() { # a processor
  local archive=target/archive/$1/libtrimolaveg.a cc="$1-linux-gnu-gcc -std=gnu99 -O2 -Wall -Wextra -Werror -static -Iinclude"
  $cc -o "$built/example-$1" examples/c/scan.c "$archive"
  "qemu-$1" "$built/example-$1" | cmp - examples/expected || { echo "targets: the example for $1 printed something else than examples/expected" >&2; exit 1; }
  $cc -o "$built/pair-$1" examples/c/pair.c "$archive"
  "qemu-$1" "$built/pair-$1" | cmp - examples/expected-pair || { echo "targets: the pair for $1 printed something else than examples/expected-pair" >&2; exit 1; }
  $cc -o "$built/sizes-$1" tests/sizes/check.c "$archive"
  "qemu-$1" "$built/sizes-$1" >"$built/log" || { cat "$built/log" >&2; exit 1; }
  $cc -o "$built/typed-$1" tests/typed/check.c "$archive"
  "qemu-$1" "$built/typed-$1" || exit 1
  echo "targets: $1: the examples printed what is expected; $(tail -n 1 "$built/log")"
  [ "$made" = 0 ] || return 0
  $cc -Icompare/remote -o "$built/there-$1" "$built/there.c" "$archive"
  compare "$1" differences
  compare "$1" floats 1 $((5000 * many))
  compare "$1" lengths 1 $((2000 * many))
  for part in ring tracker scan panel pair fine; do compare "$1" "$part" 1 $((5000 * many)); done
  compare "$1" frames 1 $((50 * many))
  echo "targets: $1: $((30000 * many)) calls beside the Rust, damage and all, 0 different"
}

others=
for processor in aarch64 riscv64; do
  [ "$processor" != "$(uname -m)" ] || continue
  if command -v "$processor-linux-gnu-gcc" >/dev/null && command -v "qemu-$processor" >/dev/null; then
    others="$others $processor"
  else
    echo "targets: $processor is left out, $processor-linux-gnu-gcc or qemu-$processor is not on the PATH (Debian: gcc-$processor-linux-gnu, its libc6-dev, qemu-user)"
  fi
done
[ -n "$others" ] || exit 0
for processor in $others; do [ -e "target/archive/$processor/libtrimolaveg.a" ] || { tools/archive all; break; }; done
made=0
here || made=$?
[ "$made" = 0 ] || [ "$made" = 3 ] || exit "$made"
for processor in $others; do try "$processor"; done
