#!/bin/sh
# Plants the bugs of tools/planted, one at a time, into a copy of the repository, and prints for each whether the prover refused it
# and where. Outside the gate. Usage: sh tools/planted.sh [CRATE..]
set -eu
cd "$(dirname "$0")/.."
copy=$(mktemp -d)
trap 'rm -rf "$copy"' EXIT
tar -cf - --exclude=out crates crates.txt | tar -xf - -C "$copy"
rm -rf "$copy"/crates/*/must-fail
for folder in tools/planted/*/; do
    crate=$(basename "$folder")
    if [ $# -eq 0 ] || printf '%s\n' "$@" | grep -qx "$crate"; then
        cp -r "$folder" "$copy/crates/$crate/must-fail"
    fi
done
cd "$copy"
status=0
rt must-fail "$@" > log 2>&1 || status=$?
grep -E 'must-fail |^rt: ok|passed, ' log || true
exit $status
