#!/bin/sh
# usage: compare.sh CONSOLE FOLDER..
# Runs CONSOLE on each script (*.txt) of each FOLDER and verifies its output with reference.py,
# whose first lines say how lines are compared. Ends with status 1 if an output is wrong.
set -u
[ $# -ge 2 ] || { sed -n 2,4p "$0" >&2; exit 2; }
console=$1
shift
tools=$(dirname "$0")
output=$(mktemp)
trap 'rm -f "$output"' EXIT
right=0
wrong=0
for folder in "$@"; do
  for script in "$folder"/*.txt; do
    "$console" < "$script" > "$output"
    status=$?
    if [ $status -ne 0 ]; then
      echo "$script: status $status"
      wrong=$((wrong + 1))
    elif python3 "$tools/reference.py" --check "$output" < "$script" > "$output.found"; then
      right=$((right + 1))
    else
      echo "$script:"
      head -5 "$output.found"
      wrong=$((wrong + 1))
    fi
    rm -f "$output.found"
  done
done
echo "$right right, $wrong wrong"
[ $wrong -eq 0 ]
