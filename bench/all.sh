#!/usr/bin/env bash
# All measurements of `replay` in one table: refused lines, notes and entries (`lines.py`), hands of folds (`folds.py`),
# of all acts (`acts.py`) and with showdowns in each game (`showdowns.py`), and one table and 64 (`tables.py`). Each row
# has the time of sed over the same file in the same run. Builds the program where it is not there yet. Needs sed and
# python3.
set -euo pipefail
cd "$(dirname "$0")/.."
. bench/timing.sh

table_head
python3 bench/lines.py "$work"
table_row "refused lines" "$work/refused" "no 1 Syntax"
table_row "notes" "$work/notes" ok
table_row "entries" "$work/entries" "no 1 Syntax"
rm "$work/refused" "$work/notes" "$work/entries" "$work/limit"
python3 bench/folds.py "$work"
table_row "hands of folds" "$work/hands" ok
python3 bench/folds.py "$work" shuffled
table_row "hands of folds, shuffled" "$work/hands" ok
python3 bench/acts.py "$work"
table_row "all acts" "$work/hands" ok
for game in holdem omaha hilo; do
    python3 bench/showdowns.py "$game" "$work"
    table_row "showdowns, $game" "$work/hands" ok
done
for tables in 1 64; do
    python3 bench/tables.py "$tables" 1000000 "$work/tables"
    table_row "tables: $tables" "$work/tables" ok
done
