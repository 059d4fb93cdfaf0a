#!/usr/bin/env bash
# How many instructions a line takes in `replay`, in the plain Rust program of `plain.sh` and in `view`, over the inputs of
# `plain.sh`: the difference of the first 20,000 and the first 10,000 lines of each, counted by callgrind. What else runs
# does not move them. Builds the program where it is not there yet. Needs rustc, valgrind and python3.
set -euo pipefail
cd "$(dirname "$0")/.."
. bench/timing.sh
rustc --edition 2024 -O -o "$work/plain" bench/plain/replay.rs

# the instructions of a program with these words over the first lines of a file, so many
counted() {
    head -n "$2" "$1" > "$work/front"
    valgrind --tool=callgrind --callgrind-out-file=/dev/null "${@:3}" < "$work/front" 2>&1 > /dev/null \
        | sed -n 's/.*Collected : //p'
}

# the instructions of a line
a_line() { echo $((($(counted "$1" 20000 "${@:2}") - $(counted "$1" 10000 "${@:2}")) / 10000)); }

# A row of the table: the name of the input and its file.
instructions_row() {
    python3 - "$1" "$(a_line "$2" "$program" replay)" "$(a_line "$2" "$work/plain" replay)" \
        "$(a_line "$2" "$program" view p1)" "$(a_line "$2" "$program" view zed)" <<'ROW'
import sys
name, *counts = sys.argv[1:]
replay, plain, player, stranger = map(int, counts)
print(f"| {name} | {replay:,} | {plain:,} | {replay / plain:.2f} | {player:,} | {player / replay:.2f} "
      f"| {stranger:,} | {stranger / replay:.2f} |")
ROW
}

echo "| input | replay | plain | ratio | view of a player | ratio to replay | view of a stranger | ratio to replay |"
echo "|---|---|---|---|---|---|---|---|"
python3 bench/lines.py "$work"
instructions_row "refused lines" "$work/refused"
instructions_row "notes" "$work/notes"
instructions_row "entries" "$work/entries"
rm "$work/refused" "$work/notes" "$work/entries" "$work/limit"
python3 bench/folds.py "$work" shuffled
instructions_row "hands of folds" "$work/hands"
python3 bench/acts.py "$work"
instructions_row "hands of all acts" "$work/hands"
for game in holdem omaha hilo; do
    python3 bench/showdowns.py "$game" "$work"
    instructions_row "showdowns, $game" "$work/hands"
done
