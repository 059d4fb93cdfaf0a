#!/usr/bin/env bash
# How the docks do under threads, as LLVM builds them: hands a second at 1, 4 and 64 tables, whose players act at once from
# as many threads as there are processors, beside `replay` of the same events by one thread in the same run; the processor
# time of 64 workers whose hands lie while nobody acts, over ten seconds; and the time from the last act of a hand to its
# settle in the journal, at one table, and at one of 64 while the tables of the other threads play. Needs python3.
# Usage: bench/docks.sh [HANDS [PLAYERS]].
set -euo pipefail
cd "$(dirname "$0")/.."
hands=${1:-100000}
players=${2:-9}
threads=$(nproc)
replay=$PWD/crates/floor_replay/out/floor_replay
./floor replay < /dev/null > /dev/null
. bench/scratch.sh
scratch docks $(libraries) < /dev/null

# how many threads act: one for each processor, but no more than there are tables
acting() { echo $(($1 < threads ? $1 : threads)); }

# the wall time of a replay of what was played, in seconds; each line but the report's is answered `ok`
took_replay() {
    python3 - "$replay" "$1" "$work/replayed" <<'TOOK'
import subprocess, sys, time
program, played, replayed = sys.argv[1:]
with open(played, "rb") as source, open(replayed, "wb") as out:
    start = time.monotonic()
    subprocess.run([program, "replay"], stdin=source, stdout=out, check=True)
    took = time.monotonic() - start
lines = sum(1 for _ in open(played, "rb"))
answers = open(replayed, "rb").read().split(b"\n")
assert answers[:lines] == [b"ok"] * lines and answers[lines] == b"* report"
print(took)
TOOK
}

echo "| tables | hands | events | hands per second | replay of the same events | ratio |"
echo "|---|---|---|---|---|---|"
for tables in 1 4 64; do
    for _ in 1 2 3; do
        "$program" hands "$tables" "$players" "$(acting "$tables")" "$hands" > "$work/played" 2> "$work/took"
        echo "$(cat "$work/took") $(took_replay "$work/played") $(wc -l < "$work/played")"
    done > "$work/turns"
    python3 - "$tables" "$work/turns" <<'ROW'
import re, sys
turns = [re.match(r"(\d+) hands, (\d+) ns (\S+) (\d+)", line).groups() for line in open(sys.argv[2])]
hands, ns, replayed, events = min(turns, key=lambda turn: int(turn[1]) / int(turn[0]))
ours, theirs = int(ns) / 1e9, min(float(turn[2]) for turn in turns)
print(f"| {sys.argv[1]} | {int(hands):,} | {int(events):,} | {int(hands) / ours:,.0f} | {int(hands) / theirs:,.0f} "
      f"| {ours / theirs:.2f} |")
ROW
done

python3 - "$program" "$threads" <<'IDLE'
import resource, subprocess, sys
program, threads = sys.argv[1:]
def cost(milliseconds):
    before = resource.getrusage(resource.RUSAGE_CHILDREN)
    subprocess.run([program, "idle", "64", "9", threads, str(milliseconds)], stdout=subprocess.DEVNULL,
                   stderr=subprocess.DEVNULL, check=True)
    after = resource.getrusage(resource.RUSAGE_CHILDREN)
    return after.ru_utime + after.ru_stime - before.ru_utime - before.ru_stime
start = cost(1)
print(f"64 workers whose hands lie, over ten seconds: {(cost(10_000) - start) / 10:.1%} of a processor")
IDLE

for tables in 1 64; do
    "$program" settles "$tables" 2 "$(acting "$tables")" 100 2>&1 > /dev/null | python3 -c "
import re, statistics, sys
times = sorted(int(ns) / 1e6 for ns in re.findall(r'settled after (\d+) ns', sys.stdin.read()))
print(f'from the last act to the settle, at $tables tables: {statistics.median(times):.2f} ms in the middle, '
      f'{times[int(len(times) * 0.9)]:.2f} ms for nine of ten, {times[-1]:.2f} ms at most')"
done
