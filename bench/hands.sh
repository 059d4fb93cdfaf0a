#!/usr/bin/env bash
# How long `replay` takes for 100,000 hands of folds at a table of nine (`folds.py` says which): lines per second, the
# ratio to `sed` over the same file in the same run, the time of the second half of the hands against that of the first,
# and how many lines were not answered `ok`, which must be none. Builds the program where it is not there yet. Needs sed
# and python3.
set -euo pipefail
cd "$(dirname "$0")/.."
. bench/timing.sh

python3 bench/folds.py "$work"
measure_halves
