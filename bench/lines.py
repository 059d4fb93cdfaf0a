#!/usr/bin/env python3
"""Makes lines that take no hand: `lines.py FOLDER` writes to FOLDER/refused 64 MiB of lines outside the grammar, to
FOLDER/limit 256 MiB of them, to FOLDER/notes 64 MiB of notes, and to FOLDER/entries a plan and a million entries, of
which few are accepted.
"""
import sys

LINE = b"seat nine of table four is not a line of the grammar\n"
NOTE = b"* seat nine of table four has a line of a note here\n"
PLAN = ["game holdem", "tables 1", "seats 10", "stack 1000", "buyin 100", "late 1", "blinds 100 200 100",
        "shares 700 300", "go"]


def main():
    folder = sys.argv[1]
    for name, line, megabytes in (("refused", LINE, 64), ("limit", LINE, 256), ("notes", NOTE, 64)):
        with open(f"{folder}/{name}", "wb") as file:
            file.write(line * ((megabytes << 20) // len(line)))
    with open(f"{folder}/entries", "w", encoding="ascii") as entries:
        entries.write("\n".join(PLAN) + "\n")
        for i in range(1_000_000):
            entries.write(f"enter p{i % 1000} 1 {i % 10 + 1}\n")


if __name__ == "__main__":
    main()
