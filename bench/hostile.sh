#!/usr/bin/env bash
# What no clause can say of misuse and of want: clients that say nothing, read nothing, send a gigabyte in one line, a byte a
# second, bytes at random or ten thousand wrong words, come and go, or are cut in the midst of an order, while two players
# play; each allocation of a served hand refused in turn; and out as a device that is full after each number of bytes, as a
# pipe whose reader is gone, and closed, of the server and of the offline commands, also where err fails. Needs python3 and
# a C compiler.
set -euo pipefail
cd "$(dirname "$0")"
../floor serve < /dev/null 2> /dev/null || [ $? = 2 ]
../floor replay < /dev/null > /dev/null
python3 -m serving.hostile
python3 -m serving.refused_memory
python3 -m serving.failing_streams
./full_device.py
