#!/usr/bin/env bash
# Each wrong program names a text that stands exactly once, so that it can be tried: told here within seconds, and not behind all proofs.
set -eu
cd "$(dirname "$0")/.."
python3 tests/wrong/stand.py
