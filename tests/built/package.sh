#!/usr/bin/env bash
# What a newcomer does, as docs/FIRMWARE.md has it: from the dist file to a linked program. The lines between the marks are run as they stand, in an empty home. Then the Rust crate's own tests.
set -eu
cd "$(dirname "$0")/../.."
for tool in make cc pkg-config tar; do
  command -v "$tool" >/dev/null 2>&1 || { echo "package: left out, $tool is not on the PATH"; exit 0; }
done
make -s dist >/dev/null
version=$(tools/version)
room=$(mktemp -d)
trap 'rm -rf "$room"' EXIT
cp "target/dist/trimolaveg-$version.tar.gz" "$room"
sed -n '/^<!-- a newcomer/,/^<!-- end -->/p' docs/FIRMWARE.md | sed -n 's/^    //p' >"$room/lines"
lines=$(wc -l <"$room/lines")
[ "$lines" -gt 4 ] && [ "$lines" -le 10 ] || { echo "package: docs/FIRMWARE.md has $lines lines of shell between its marks" >&2; exit 1; }
# The programs are for x86-64: elsewhere the newcomer has the kit's emulator, and nothing else of the kit.
kit=
[ "$(uname -m)" = x86_64 ] || kit=RATTLE_HOME=${RATTLE_HOME:-$(cd "$(dirname "$(readlink -f "$(command -v rt)")")/.." && pwd -P)}
(cd "$room" && env -u RATTLE_HOME $kit HOME="$room" PATH=/usr/bin:/bin sh -eu lines >said 2>errors) || { cat "$room/errors" >&2; exit 1; }
cat examples/expected demo/log >"$room/expected"
echo "trimolaveg $version" >>"$room/expected"
grep -vE '^(install|printf) ' "$room/said" | cmp - "$room/expected" || { echo "package: the newcomer's lines printed something else" >&2; exit 1; }
echo "package: $lines lines of shell lead from the dist file to a linked program and a replay"

command -v cargo >/dev/null 2>&1 || { echo "package: the Rust crate is left out, cargo is not on the PATH"; exit 0; }
said=$(cd bindings/rust && CARGO_TARGET_DIR=../../target/cargo cargo test --offline --quiet 2>&1) || { printf '%s\n' "$said" >&2; exit 1; }
echo "package: $(printf '%s\n' "$said" | sed -n 's/^test result: ok. \([0-9]*\) passed.*/\1/p' | paste -sd+ | sed 's/+/ + /g') tests of the Rust crate passed"
