#!/usr/bin/env bash
# ./replay as a person uses it: good and bad files, pipes, the ends of a run; then a night of recordings at once.
set -eu
cd "$(dirname "$0")/../.."
bash tests/replay/try
bash tests/replay/all
