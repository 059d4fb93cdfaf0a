#!/usr/bin/env bash
# Fuzz of the server over TCP: so many clients, more than its 128 desks, come to doors at random for so many seconds. They
# play, say lawful and unlawful lines, bytes at random and half lines, read nothing, and quit, leave or are cut off. In the
# end each door has to answer, the floor stops the tournament, and the text has to replay. Needs python3.
# Usage: bench/fuzz.sh [SECONDS [CLIENTS [TABLES [SEED]]]].
set -euo pipefail
cd "$(dirname "$0")"
../floor serve < /dev/null 2> /dev/null || [ $? = 2 ]
../floor replay < /dev/null > /dev/null
python3 -m serving.fuzz "$@"
