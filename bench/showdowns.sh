#!/usr/bin/env bash
# How long `replay` takes for 20,000 hands at a table of nine that come to a showdown of three to six players, in each
# game (`showdowns.py` says which hands): lines per second, the ratio to `sed` over the same file in the same run, the
# time of the second half of the hands against that of the first, and how many lines were not answered `ok`, which must
# be none. Builds the program where it is not there yet. Needs sed and python3.
set -euo pipefail
cd "$(dirname "$0")/.."
. bench/timing.sh

for game in holdem omaha hilo; do
    echo "$game:"
    python3 bench/showdowns.py "$game" "$work"
    measure_halves
done
