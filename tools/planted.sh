#!/usr/bin/env bash
# Tries the bugs in tools/planted, one at a time, on a copy of the last commit: rt has to refuse each. It takes the place of
# the crates' own edits there.
set -e
top=$(cd "$(dirname "$0")/.." && pwd)
copy=$(mktemp -d)
trap 'rm -rf "$copy"' EXIT

git clone -q "$top" "$copy/tree"
cd "$copy/tree"
rm -rf crates/*/must-fail
for crate in "$top"/tools/planted/*/; do
    cp -r "$crate" "crates/$(basename "$crate")/must-fail"
done
rt must-fail $(ls "$top/tools/planted")
