#!/usr/bin/env bash
# The recording that the gate runs through replay_main is the demo.
set -eu
cd "$(dirname "$0")/.."
for file in events far near; do
  cmp "demo/$file" "crates/replay_main/data/$file"
done
cmp demo/log crates/replay_main/stdout
cmp demo/log crates/parts_main/data/log
cmp demo/second/log crates/parts_main/data/second
sed -n "s/^    //p" README.md | sed -n "/^\$ .\/parts demo/,/^differing/p" | tail -n +2 | cmp - crates/parts_main/stdout
for file in events far near; do
  cmp "demo/$file" "crates/check_main/data/$file"
done
cmp demo/second/log crates/check_main/data/log
sed -n "s/^    //p" README.md | sed -n "/^\$ .\/check demo/,/^should/p" | tail -n +2 | cmp - crates/check_main/stdout
echo "demo: the gate replays it"
