#!/usr/bin/env bash
# How long `replay` takes beside a plain Rust program (`plain/replay.rs` says what it does) over the same lines in the same
# run: lines without a hand (`lines.py`), hands of folds (`folds.py`), of all acts (`acts.py`) and with showdowns in each
# game (`showdowns.py`). The two take turns, nine each. Times are of the processor, since what else runs moves them less,
# and the middle ones; the ratio is the middle one of those of the turns. The goal is a ratio of at most 2 over hands of
# folds. Fails where the two do not put the same bytes. Builds the program where it is not there yet. Needs rustc and
# python3.
set -euo pipefail
cd "$(dirname "$0")/.."
. bench/timing.sh
rustc --edition 2024 -O -o "$work/plain" bench/plain/replay.rs

plain() { "$work/plain" replay < "$1" > "$work/plain_out"; }

# the processor time of a command, in seconds, as a sum
spent() {
    local TIMEFORMAT=%U+%S
    { time "$@"; } 2>&1
}

# A row of the table: the name of the input and its file.
plain_row() {
    local ours=() theirs=()
    for _ in {1..9}; do
        ours+=("$(spent replay "$2")")
        theirs+=("$(spent plain "$2")")
    done
    cmp "$work/out" "$work/plain_out"
    python3 - "$1" "$(wc -l < "$2")" "${ours[*]}" "${theirs[*]}" <<'ROW'
import statistics, sys
name, lines, *times = sys.argv[1:]
ours, theirs = ([sum(map(float, time.split("+"))) for time in each.split()] for each in times)
ratios = sorted(replay / plain for replay, plain in zip(ours, theirs))
print(f"| {name} | {int(lines):,} | {statistics.median(ours):.3f} s | {statistics.median(theirs):.3f} s "
      f"| {statistics.median(ratios):.2f} | {ratios[0]:.2f} to {ratios[-1]:.2f} |")
ROW
}

echo "| input | lines | replay | plain | ratio | ratios |"
echo "|---|---|---|---|---|---|"
python3 bench/lines.py "$work"
plain_row "refused lines" "$work/refused"
plain_row "notes" "$work/notes"
plain_row "entries" "$work/entries"
rm "$work/refused" "$work/notes" "$work/entries" "$work/limit"
python3 bench/folds.py "$work" shuffled
plain_row "hands of folds" "$work/hands"
python3 bench/acts.py "$work"
plain_row "hands of all acts" "$work/hands"
for game in holdem omaha hilo; do
    python3 bench/showdowns.py "$game" "$work"
    plain_row "showdowns, $game" "$work/hands"
done
