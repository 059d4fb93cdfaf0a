#!/usr/bin/env bash
# How long `simulate` takes for 20,000 hands of pot-limit Omaha, at one table of nine and at 64 of them, with stacks so
# deep that nobody goes out: hands per second, the ratio to `replay` over the same events in the same run, and the
# memory at the peak of both. Times are the least of fifteen turns, and the ratio is the middle one of those of the turns,
# since a busy machine slows a turn of either. The goal is a ratio of at most 2. The model makes the events as lines first,
# which takes it some minutes. Fails where `replay` does not answer each line `ok`, or ends with another report than
# `simulate`. Builds the program where it is not there yet. Needs python3.
set -euo pipefail
cd "$(dirname "$0")/.."
. bench/timing.sh

number=7
for tables in 1 64; do
    cat > "$work/plan$tables" <<PLAN
game = "omaha"
tables = $tables
seats = 9
stack = 1000000000
buyin = 100
late = 1
blinds = [[100, 200, 100]]
shares = [700, 300]
PLAN
    python3 bench/model.py events "$number" < "$work/plan$tables" > "$work/events$tables" &
done
wait

simulate() { "$program" simulate "$number" < "$1" > "$work/told"; }

# the number behind a word of what simulate told
told() { sed -n "s/^$1 //p" "$work/told"; }

echo "| players | hands | events | simulate | replay | ratio | hands per second | memory of simulate, of replay |"
echo "|---|---|---|---|---|---|---|---|"
for tables in 1 64; do
    ours=() theirs=()
    for _ in {1..15}; do
        ours+=("$(took simulate "$work/plan$tables")")
        theirs+=("$(took replay "$work/events$tables")")
    done
    events=$(wc -l < "$work/events$tables")
    [ "$events" = "$(told events)" ]
    [ "$events" = "$(head -n "$events" "$work/out" | grep -cx ok)" ]
    tail -n "+$((events + 1))" "$work/out" | cmp - <(tail -n +5 "$work/told")
    python3 - "$((tables * 9))" "$(told hands)" "$events" "${ours[*]}" "${theirs[*]}" \
        "$(peak "$work/plan$tables" simulate "$number")" "$(peak "$work/events$tables")" <<'ROW'
import statistics, sys
players, hands, events, ours, theirs, *peaks = sys.argv[1:]
ours, theirs = ([float(time) for time in times.split()] for times in (ours, theirs))
ratio = statistics.median(simulate / replay for simulate, replay in zip(ours, theirs))
print(f"| {players} | {int(hands):,} | {int(events):,} | {min(ours):.2f} s | {min(theirs):.2f} s | {ratio:.2f} "
      f"| {int(hands) / min(ours):,.0f} | {', '.join(f'{int(peak) / 1024:.1f} MiB' for peak in peaks)} |")
ROW
done
