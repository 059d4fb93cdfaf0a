#!/usr/bin/env bash
# How long `replay` takes for many lines, as a ratio to `sed` over the same file in the same run, and how much
# memory it takes at its peak. Builds the program where it is not there yet. Needs sed and python3.
set -euo pipefail
cd "$(dirname "$0")/.."
. bench/timing.sh

python3 bench/lines.py "$work"
table_head
table_row "refused lines" "$work/refused" "no 1 Syntax"
table_row "notes" "$work/notes" ok
table_row "entries" "$work/entries" "no 1 Syntax"
echo "memory at the peak over $(stat -c %s "$work/limit") bytes of input: $(peak "$work/limit") KiB"
