#!/usr/bin/env bash
# How long `best_holdem`, `best_omaha`, the plain walk through the 60 choices of Omaha, `best_low`, and `award` for ten
# live players in hold'em take, over streams of hands made before, as LLVM builds them. Where the path of a plain Rust
# program is given that prints what a hand of seven cards takes it, in ns, it is built by `rustc -O` and run over as many
# hands before and after, and the ratio to the lesser of its times is said.
# Usage: bench/values.sh [BASELINE.rs]. Needs python3, and rustc for the baseline.
set -euo pipefail
cd "$(dirname "$0")/.."
. bench/scratch.sh

baseline() { "$work/baseline" 20000000 | sed -E 's/.* ([0-9.]+) ns\/eval.*/\1/'; }

scratch values card_set card_choices rulebook hand_rank low_rank
before= after=
if [ $# -ge 1 ]; then
    rustc -O -o "$work/baseline" "$1"
    before=$(baseline)
fi
values=$program
scratch awards card_set card_choices hand_rank low_rank rulebook button_blinds pot_layers showdown
"$values" > "$work/times"
"$program" >> "$work/times"
[ $# -ge 1 ] && after=$(baseline)
python3 - "$work/times" "$before" "$after" <<'SAY'
import re, sys
base = [float(time) for time in sys.argv[2:] if time]
for line in open(sys.argv[1]):
    game, hands, rounds, took = re.match(r"(\w+) (\d+) hands, (\d+) rounds, (\d+) ns", line).groups()
    each = int(took) / (int(hands) * int(rounds))
    ratio = f", {each / min(base):.2f} times the baseline's {min(base):.1f} ns" if base and game == "holdem" else ""
    if game == "omaha":
        omaha = each
    if game == "walk":
        ratio = f", {each / omaha:.1f} times that of best_omaha"
    print(f"{game}: {each:.1f} ns a hand{ratio}")
SAY
