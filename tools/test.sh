#!/bin/sh
# Proves every crate, tries the edits that must be refused, and runs the programs and tests.
# What a run passed is kept on the machine, by the checksums of all that it read, and is not proved again there.
set -eu
cd "$(dirname "$0")/.."
exec rt ci
