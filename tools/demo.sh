#!/bin/sh
# Proves and builds the console, and runs it on the shipped story of a store's commissioning.
set -eu
cd "$(dirname "$0")/../crates/console"
log=$(mktemp)
trap 'rm -f "$log"' EXIT
if ! rt run < stdin 2> "$log"; then
    tail -n 20 "$log" >&2
    exit 1
fi
