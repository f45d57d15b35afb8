#!/usr/bin/env bash
# docs/INTEGRATION.md: each name of the C face in it stands in a header, and its lengths are those of trimolaveg_sizes.h; examples/c/chain.c compiles. tests/built/integration.sh runs that.
set -eu
cd "$(dirname "$0")/.."
guide=docs/INTEGRATION.md
for name in $(grep -oE '\b(tmvt?_[a-z_]+|TMV_[A-Z_]+)\b' "$guide" examples/c/chain.c -h | sort -u); do
  grep -qwF -- "$name" include/*.h || { echo "integration: $name is in no header" >&2; exit 1; }
done
command -v cc >/dev/null 2>&1 || { echo "integration: no C compiler here, so nothing is compiled"; exit 0; }
strict="-Wall -Wextra -Wpedantic -Werror -Iinclude -fsyntax-only"
for standard in c99 c17; do
  cc -std=$standard $strict examples/c/chain.c
  cc -std=$standard $strict tests/integration/rooms.c
done
rows=$(sed -nE 's/^\| ([0-9,]+) \| ([0-9,]+) \| ([0-9,]+) \| .*/\1 \2 \3/p' "$guide" | tr -d ,)
[ "$(wc -l <<<"$rows")" -ge 3 ] || { echo "integration: $guide has no table of lengths" >&2; exit 1; }
while read -r span transform frame; do
  echo "_Static_assert(TMV_FINE_TRANSFORM_LEN($span) == $transform && TMV_FINE_FRAME_LEN($span) == $frame, \"span $span\");"
done <<<"$rows" | cc -std=c11 $strict -include trimolaveg_sizes.h -x c -
echo "integration: the guide's names and lengths are the headers', and its example compiles"
