#!/usr/bin/env bash
# The server with plain clients over loopback: an evening of twelve tables of nine, whose players each have a desk of
# their own and act when their lines say that they are due, for at most so many minutes, and one of 63 tables of two; 64
# tables of ten, whose players share 123 doors by coming, acting and leaving, for so many; and what 64 tables and 128 desks
# cost where nobody says anything, with a session at each desk and with the floor's alone. Each served text is replayed, and what clients were told is compared with what `view` tells. The players are
# several processes, so that they wait for the server and not for each other; beside their delays stand those of a plain
# echo over loopback, asked by the same processes with each act, and those of a prober with nothing else to do. Needs
# python3.
# Usage: bench/serving.sh [MINUTES [MINUTES]].
set -euo pipefail
cd "$(dirname "$0")"
../floor serve < /dev/null 2> /dev/null || [ $? = 2 ]
../floor replay < /dev/null > /dev/null
python3 -m serving.evening 12 9 "${1:-10}"
python3 -m serving.evening 63 2 "${1:-10}"
python3 -m serving.crowd 64 10 127 "${2:-5}"
python3 -m serving.idle 64 128 128 10
python3 -m serving.idle 64 128 1 10
