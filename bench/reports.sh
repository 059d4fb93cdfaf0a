#!/usr/bin/env bash
# How long the report takes of a tournament that 640 players entered and one has won: the list in which 64 tables become
# one (`rules/break_down.py`) is played, and then its report is made and written 10,000 times, each time with all places
# and prizes found anew. `sort` puts as many rows in order in the same run, those of the report in any order: all
# 6,400,000 in one file, which costs it more comparisons, and 640 in a process of its own, 500 times, which costs it a
# process. Says the time of 640 rows for each, the least of five turns. Needs sort and python3.
set -euo pipefail
cd "$(dirname "$0")/.."
. bench/scratch.sh

scratch reports floor_text card_set card_choices hand_rank low_rank rulebook level_plan button_blinds pot_layers \
    showdown betting_round deal_order seat_book balance_rule break_draw hand_rounds chip_race entry_list place_list \
    table_engine line_words tournament_events floor_events tournament_rules floor_book floor_core < /dev/null
PYTHONPATH=bench python3 - "$work" <<'LISTS'
import random, sys
from rules.break_down import break_down
from rules.maker import Maker
maker = Maker(1)
break_down(maker)
rows = [line + "\n" for line in maker.book.report() if line.startswith("* out ")]
random.Random(1).shuffle(rows)
for name, lines in (("lines", [line + "\n" for line in maker.lines]), ("rows", rows), ("all_rows", rows * 10_000)):
    with open(f"{sys.argv[1]}/{name}", "w", encoding="ascii") as file:
        file.writelines(lines)
LISTS

# the wall time of a command, in seconds
took() {
    local begin
    begin=$(date +%s.%N)
    "$@"
    python3 -c "print($(date +%s.%N) - $begin)"
}
sort_all() { LC_ALL=C sort --parallel=1 "$work/all_rows" > /dev/null; }
sort_often() { for _ in {1..500}; do LC_ALL=C sort "$work/rows" > /dev/null; done; }

for _ in 1 2 3 4 5; do
    "$program" < "$work/lines"
    echo "all $(took sort_all)"
    echo "often $(took sort_often)"
done > "$work/times"
python3 - "$work/times" "$(wc -l < "$work/rows")" <<'SAY'
import re, sys
lines = open(sys.argv[1]).readlines()
reports = [int(took) / int(rounds) / 1000 for rounds, took in
           (re.match(r"reports (\d+) rounds, (\d+) ns", line).groups() for line in lines if line.startswith("reports"))]
least = lambda word, parts: min(float(line.split()[1]) for line in lines if line.startswith(word)) / parts * 1e6
ours, in_one_file, by_itself = min(reports), least("all", 10_000), least("often", 500)
print(f"report of {sys.argv[2]} players: {ours:.1f} microseconds")
print(f"sort of as many rows: {in_one_file:.1f} microseconds in a file of 10,000 times as many, ratio "
      f"{ours / in_one_file:.2f}; {by_itself:.1f} in a process of its own, ratio {ours / by_itself:.2f}")
SAY
