#!/usr/bin/env bash
# One name, one meaning, in the definitions of a crate and of those that it cites.
set -eu
cd "$(dirname "$0")/.."
python3 tests/names.py
