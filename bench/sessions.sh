#!/usr/bin/env bash
# Sessions over memory beside a plain model of a session, over scripts that are made from a seed: proves and builds the
# program of bench/sessions.txt, and has bench/sessions.py compare. With --unproved the program is run before any proof, by
# `rt try`, which is slower. Needs python3.
# Usage: bench/sessions.sh [--unproved] [SCRIPTS [SEED]].
set -euo pipefail
cd "$(dirname "$0")/.."
unproved=
if [ "${1-}" = --unproved ]; then
    unproved=yes
    shift
fi
. bench/scratch.sh
words=(--scripts "${1:-10000}" --seed "${2:-1}")
if [ -n "$unproved" ]; then
    lay_out sessions $(libraries)
    bench/sessions.py --crate "$crate" "${words[@]}"
else
    scratch sessions $(libraries) < /dev/null
    bench/sessions.py --program "$program" "${words[@]}"
fi
