#!/usr/bin/env bash
# Counts the categories and the different values over all 2,598,960 hands of five cards, and with the word `seven` also
# over all 133,784,560 hands of seven cards, by the proved code. It says what it counted, from the straight flush down,
# beside the counts that are known of poker: each line has both, and the status is 1 where two differ.
set -euo pipefail
cd "$(dirname "$0")/.."
. bench/scratch.sh

scratch value_counts card_set card_choices hand_rank
cat > "$work/known" <<'KNOWN'
hands of five cards, from the straight flush down:
40
624
3744
5108
10200
54912
123552
1098240
1302540
7462 different values
KNOWN
[ "${1:-}" = seven ] && cat >> "$work/known" <<'KNOWN'
hands of seven cards, from the straight flush down:
41584
224848
3473184
4047644
6180020
6461620
31433400
58627800
23294460
4824 different values
KNOWN
"$program" "$@" > "$work/counted"
paste "$work/counted" "$work/known"
cmp "$work/counted" "$work/known"
