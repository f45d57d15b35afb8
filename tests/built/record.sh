#!/usr/bin/env bash
# ./record as a person uses it, and 1,000 damaged sound files; then the desk's day in six commands, as README.md has it.
set -eu
cd "$(dirname "$0")/../.."
bash tests/record/try
bash tests/record/day
