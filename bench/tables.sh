#!/usr/bin/env bash
# How long `replay` takes for a million lines at one table of nine and at 64 of them, with hands of folds at all tables
# in turn, players who go out, newcomers, balances and breaks (`tables.py` says which): lines per second of both, the
# time of a line at 64 tables against that at one, the ratio to `sed` over the same files in the same run, and how many
# lines were not answered `ok`, which must be none. Builds the program where it is not there yet. Needs sed and python3.
set -euo pipefail
cd "$(dirname "$0")/.."
. bench/timing.sh

lines=1000000
for tables in 1 64; do
    python3 bench/tables.py "$tables" "$lines" "$work/tables$tables"
    for word in balance break; do
        echo "$tables tables: $(grep -c "^$word " "$work/tables$tables" || true) lines of $word"
    done
done

# the lines that were not answered `ok` in the last run
refused() { echo $((lines - $(head -n "$lines" "$work/out" | grep -cx ok || true))); }

one= many= sed_one= sed_many= refused=0
for _ in 1 2 3 4 5; do
    one=$(lesser "$(took replay "$work/tables1")" $one)
    refused=$((refused + $(refused)))
    many=$(lesser "$(took replay "$work/tables64")" $many)
    refused=$((refused + $(refused)))
    sed_one=$(lesser "$(took stock "$work/tables1" ok)" $sed_one)
    sed_many=$(lesser "$(took stock "$work/tables64" ok)" $sed_many)
done
python3 - "$lines" "$one" "$many" "$sed_one" "$sed_many" <<'SAY'
import sys
lines, one, many, sed_one, sed_many = map(float, sys.argv[1:])
for tables, took, sed in ((1, one, sed_one), (64, many, sed_many)):
    print(f"{tables} tables: {lines:.0f} lines, replay {took:.2f} s, {lines / took:,.0f} lines per second; "
          f"sed {sed:.2f} s, ratio {took / sed:.2f}")
print(f"a line at 64 tables takes {many / one:.2f} times as long as at one")
SAY
echo "lines not answered ok: $refused"
[ "$refused" = 0 ]
