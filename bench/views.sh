#!/usr/bin/env bash
# How long `view` takes for a million lines of hands, as a ratio to `replay` over the same file in the same run, and how
# much memory both take at their peak: hands of folds (`folds.py`), told to a player who is dealt in to each of them and
# to a name that never entered, and to that player hands of all acts (`acts.py`) and with showdowns in each game
# (`showdowns.py`). Times are the least of nine turns, and the ratio is the middle one of those of the turns, since a busy
# machine slows a turn of either. The goal is a ratio of at most 2 over hands of folds. Fails where `replay` does not
# answer each line `ok`, where not each settled hand is told, or where the lines told of the first 2,000 are not those of
# the model. Builds the program where it is not there yet. Needs python3.
set -euo pipefail
cd "$(dirname "$0")/.."
. bench/timing.sh

view() { "$program" view "$1" < "$2" > "$work/told"; }

# A row of the table: what a player is told of the lines in `hands`, with the name of the input.
view_row() {
    local ours=() theirs=() lines
    for _ in {1..9}; do
        ours+=("$(took view "$2" "$work/hands")")
        theirs+=("$(took replay "$work/hands")")
    done
    lines=$(wc -l < "$work/hands")
    [ "$lines" = "$(head -n "$lines" "$work/out" | grep -cx ok)" ]
    [ "$(grep -c "^settle " "$work/hands")" = "$(grep -c "^# settle " "$work/told")" ]
    head -n 2000 "$work/hands" | python3 bench/model.py view "$2" > "$work/front"
    cmp -n "$(stat -c %s "$work/front")" "$work/front" "$work/told"
    python3 - "$1" "$2" "$lines" "$(wc -l < "$work/told")" "${ours[*]}" "${theirs[*]}" "$(peak "$work/hands" view "$2")" \
        "$(peak "$work/hands")" <<'ROW'
import statistics, sys
name, player, lines, told, ours, theirs, *peaks = sys.argv[1:]
ours, theirs = ([float(time) for time in times.split()] for times in (ours, theirs))
ratio = statistics.median(view / replay for view, replay in zip(ours, theirs))
print(f"| {name} | {player} | {int(lines):,} | {int(told):,} | {min(ours):.2f} s | {min(theirs):.2f} s | {ratio:.2f} "
      f"| {', '.join(f'{int(peak) / 1024:.1f} MiB' for peak in peaks)} |")
ROW
}

echo "| input | player | lines | lines told | view | replay | ratio | memory of view, of replay |"
echo "|---|---|---|---|---|---|---|---|"
python3 bench/folds.py "$work" shuffled
view_row "hands of folds" p1
view_row "hands of folds" zed
python3 bench/acts.py "$work"
view_row "all acts" p1
for game in holdem omaha hilo; do
    python3 bench/showdowns.py "$game" "$work"
    view_row "showdowns, $game" p1
done
