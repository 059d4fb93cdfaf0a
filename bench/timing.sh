# What the measurements share; source it at the top of the repository. It leaves the program in `program`, proved and
# built by `./floor` where it was not there or older than its sources, and an empty folder in `work`, which goes away at
# the end.
program=$PWD/crates/floor_replay/out/floor_replay
./floor replay < /dev/null > /dev/null
work=$(mktemp -d)
trap 'rm -rf "$work"' EXIT

# the wall time of a command, in seconds, and the lesser of two times, of which the second may be missing
took() {
    local begin
    begin=$(date +%s.%N)
    "$@"
    python3 -c "print($(date +%s.%N) - $begin)"
}
lesser() { python3 -c "print(min($1, ${2:-$1}))"; }

# replay over a file, and sed that answers each of its lines by the same words
replay() { "$program" replay < "$1" > "$work/out"; }
stock() { LC_ALL=C sed "s/.*/$2/" < "$1" > "$work/stock"; }

# how much memory replay takes at its peak over a file, in KiB, or the words that are given behind it: read while it runs,
# since what the system says of a child at its end counts the memory of whoever began it
peak() {
    python3 - "$program" "$@" <<'PEAK'
import re, subprocess, sys, time
program, path, *words = sys.argv[1:]
most = 0
with open(path, "rb") as source:
    run = subprocess.Popen([program, *(words or ["replay"])], stdin=source, stdout=subprocess.DEVNULL)
while run.poll() is None:
    with open(f"/proc/{run.pid}/status") as status:
        found = re.search(r"VmHWM:\s+(\d+)", status.read())
    most = int(found[1]) if found else most
    time.sleep(0.001)
sys.exit(run.returncode or print(most))
PEAK
}

# A table with a row for each input: how many lines it has, the least time of `replay` and of sed in five turns, the
# ratio of the two, and lines per second and memory at the peak of `replay`. A row is given the input's name, its file
# and what sed answers to each line.
table_head() {
    echo "| input | lines | replay | sed | ratio | lines per second | memory at the peak |"
    echo "|---|---|---|---|---|---|---|"
}
table_row() {
    local ours= theirs=
    for _ in 1 2 3 4 5; do
        ours=$(lesser "$(took replay "$2")" $ours)
        theirs=$(lesser "$(took stock "$2" "$3")" $theirs)
    done
    python3 - "$1" "$(wc -l < "$2")" "$ours" "$theirs" "$(peak "$2")" <<'ROW'
import sys
name, lines, ours, theirs, peak = sys.argv[1], *map(float, sys.argv[2:])
print(f"| {name} | {lines:,.0f} | {ours:.2f} s | {theirs:.2f} s | {ours / theirs:.2f} | {lines / ours:,.0f} "
      f"| {peak / 1024:.1f} MiB |")
ROW
}

# Replays the lines of `hands` and those of `half`, five times by turns with sed, and says the least times: lines per
# second, the ratio to sed, and the second half of the hands against the first. Fails where a line is not answered `ok`.
measure_halves() {
    local half= whole= theirs= lines accepted
    for _ in 1 2 3 4 5; do
        half=$(lesser "$(took replay "$work/half")" $half)
        whole=$(lesser "$(took replay "$work/hands")" $whole)
        theirs=$(lesser "$(took stock "$work/hands" ok)" $theirs)
    done
    lines=$(wc -l < "$work/hands")
    python3 - "$lines" "$whole" "$half" "$theirs" <<'SAY'
import sys
lines, whole, half, theirs = map(float, sys.argv[1:])
print(f"{lines:.0f} lines, replay {whole:.2f} s, {lines / whole:,.0f} lines per second")
print(f"sed {theirs:.2f} s, ratio {whole / theirs:.2f}")
print(f"second half of the hands {whole - half:.2f} s, first half {half:.2f} s, ratio {(whole - half) / half:.2f}")
SAY
    accepted=$(head -n "$lines" "$work/out" | grep -cx ok || true)
    echo "lines not answered ok: $((lines - accepted))"
    [ "$accepted" = "$lines" ]
}
