#!/usr/bin/env bash
# What the support desk looks at: ./show and ./draw. `python3 tests/desk/check.py --write` renews the stored words and pictures.
set -eu
cd "$(dirname "$0")/.."
python3 tests/desk/check.py
