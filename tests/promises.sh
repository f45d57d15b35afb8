#!/usr/bin/env bash
# Every name in docs/PROMISES.md is in the tree, and every public call has its theorem of determinism.
set -eu
cd "$(dirname "$0")/.."
python3 tests/promises.py
