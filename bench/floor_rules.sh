#!/usr/bin/env bash
# How long the rules of the floor take that are more than a walk over a table, as LLVM builds them: the fill list of a
# table of ten among 64, and the standings of 640 entries. Each says the time of one call. Needs python3.
set -euo pipefail
cd "$(dirname "$0")/.."
. bench/scratch.sh

# what a program says of itself, `WHAT MANY THINGS, ROUNDS rounds, TIME ns, ..`, as the time of one call
say() {
    python3 - "$1" "$work/times" <<'SAY'
import re, sys
words, times = sys.argv[1:]
for line in open(times):
    many, rounds, took = map(int, re.match(r"\w+ (\d+) \w+, (\d+) rounds, (\d+) ns", line).groups())
    print(f"{words.format(many)}: {took / rounds / 1000:.1f} microseconds")
SAY
}

# the fill list of a full table of ten, where the other tables have nine players each
fill_list() {
    scratch fill_list floor_text rulebook button_blinds seat_book balance_rule break_draw
    "$program" > "$work/times"
    say "fill list at {} tables of ten"
}

# standings where all entries but one are out
standings() {
    scratch standings rulebook place_list
    "$program" > "$work/times"
    say "standings of {} entries"
}

fill_list
standings
