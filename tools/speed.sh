#!/bin/sh
# usage: speed.sh [CONSOLE [FOLDER]]
# Times the judging of every plan that families.py writes (into FOLDER, or a folder that is removed
# afterwards) with CONSOLE (crates/console/out/console): the best of three runs, less the time of an empty
# script. Prints a table and ends with status 1 if a plan takes longer than its limit, or a verdict
# is wrong or disagrees with a solver. Outside the gate: times need a machine with nothing else to do.
# The solvers minisat and cadical are run beside it where they are installed.
#   SOLVERS=all         on which plans: all, canonical or none
#   SOLVER_LIMIT=10     seconds that a solver may take for one plan (all plans take up to an hour)
#   CLOCK=wall          wall, or cpu for processor time, which a busy machine disturbs less
#   ONLY=               only plans whose name begins so, such as random or all-roles-t3
set -eu
tools=$(dirname "$0")
console=${1:-crates/console/out/console}
if [ $# -ge 2 ]; then
  folder=$2
else
  folder=$(mktemp -d)
  trap 'rm -rf "$folder"' EXIT
fi
python3 "$tools/families.py" "$folder"
python3 "$tools/speed.py" "$console" "$folder"
