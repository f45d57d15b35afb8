#!/usr/bin/env bash
# The C headers: they say what the Rattle source of the C face says, compile clean as C and C++, and let a compiler see the usual mistakes.
set -eu
cd "$(dirname "$0")/.."
python3 tests/header/check.py
python3 tests/header/typed.py
command -v cc >/dev/null 2>&1 || { echo "header: no C compiler here, so none is compiled"; exit 0; }
strict="-Wall -Wextra -Wpedantic -Werror -Iinclude -c -o /dev/null"
for header in include/*.h; do
  for standard in c99 c17; do cc -std=$standard $strict -include "$header" -x c /dev/null; done
  ! command -v c++ >/dev/null 2>&1 || c++ $strict -include "$header" -x c++ /dev/null
done
cc -std=c99 $strict -DWRONG=0 tests/header/misuse.c
for wrong in $(sed -n 's/.*WRONG [!=]= \([0-9]*\).*/\1/p' tests/header/misuse.c); do
  ! cc -std=c99 $strict -DWRONG="$wrong" tests/header/misuse.c 2>/dev/null || { echo "header: no word on mistake $wrong of tests/header/misuse.c" >&2; exit 1; }
done
echo "header: a compiler names each mistake of tests/header/misuse.c"
