#!/usr/bin/env bash
# docs/WORK.md is what tools/work makes of the headers.
set -eu
cd "$(dirname "$0")/.."
command -v cc >/dev/null 2>&1 || { echo "work: left out, there is no C compiler here"; exit 0; }
tools/work --hold
