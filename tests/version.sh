#!/usr/bin/env bash
# Every place that says the version says CHANGELOG's.
set -eu
cd "$(dirname "$0")/.."
version=$(tools/version)
IFS=. read -r major minor patch <<<"$version"
said() { # a file, and how the version stands in it
  tr -d '\n' <"$1" | grep -qF -- "$2" || { echo "version: $1 has no '$2', and CHANGELOG's first version is $version" >&2; exit 1; }
}
said include/trimolaveg.h "#define TMV_VERSION_MAJOR $major#define TMV_VERSION_MINOR $minor#define TMV_VERSION_PATCH $patch#"
said crates/version_face/src/lib.rt "MAJOR: u32 = $major;const MINOR: u32 = $minor;const PATCH: u32 = $patch;"
said crates/version_face/specs/Version.antt "this_version = version_number $major $minor $patch"
said bindings/rust/Cargo.toml "version = \"$version\""
for program in replay parts check convert record show draw; do
  [ "$("./$program" --version)" = "trimolaveg $version" ] || { echo "version: ./$program --version says something else than $version" >&2; exit 1; }
done
echo "version: $version everywhere"
