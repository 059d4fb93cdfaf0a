#!/usr/bin/env bash
# How long `replay` takes for 50,000 hands at a table of nine with raises, calls, short all-ins and checks on all
# streets (`acts.py` says which): lines per second, the ratio to `sed` over the same file in the same run, the time of
# the second half of the hands against that of the first, and how many lines were not answered `ok`, which must be none.
# Builds the program where it is not there yet. Needs sed and python3.
set -euo pipefail
cd "$(dirname "$0")/.."
. bench/timing.sh

python3 bench/acts.py "$work"
measure_halves
