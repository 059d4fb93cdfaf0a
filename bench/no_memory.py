#!/usr/bin/env python3
"""Refuses each allocation of the offline commands in turn, until a run makes no more: each run ends with status 5, its
one line on err and a front of what a run writes that has all its memory, or asks for less and ends as that run does.
serving/refused_memory tries the server. Needs python3 and a C compiler.
Usage: bench/no_memory.py"""
import itertools
import os
import pathlib
import subprocess
import sys
import tempfile
from collections import Counter

TOP = pathlib.Path(__file__).resolve().parents[1]
sys.path.insert(0, str(TOP / "bench"))
os.chdir(TOP)
import refusing
from runs import PROGRAM, build

REPLAY = os.environ.get("REPLAY", PROGRAM)
# a hand of folds, one that ends in a showdown, and a simulated tournament: the words, the input, and what is written
RUNS = [(["replay"], "examples/hand_of_folds.txt", "examples/hand_of_folds.out"),
        (["replay"], "examples/side_pots.txt", "examples/side_pots.out"),
        (["view", "cat"], "examples/side_pots.txt", "examples/side_pots.cat.view"),
        (["simulate", "7"], "examples/league_evening.toml", "examples/league_evening.out")]


def run(library, number, words, source):
    """Runs a command with one allocation refused. Gives status, out and err, and how many allocations were made."""
    environment = refusing.begin(library, number)
    ran = subprocess.run([REPLAY, *words], input=source, capture_output=True, check=False, env=environment)
    return ran.returncode, ran.stdout, ran.stderr, refusing.made(library)


def main():
    if REPLAY == PROGRAM:
        build(PROGRAM)
    with tempfile.TemporaryDirectory() as folder:
        library = refusing.build(pathlib.Path(folder))
        for words, source, want in RUNS:
            lines, whole = pathlib.Path(source).read_bytes(), pathlib.Path(want).read_bytes()
            ended = Counter()
            for number in itertools.count(1):
                status, out, err, made = run(library, number, words, lines)
                if made < number:
                    break
                ended[status] += 1
                out_of_memory = (status, err) == (5, b"out of memory\n") and whole.startswith(out)
                assert out_of_memory or (status, out, err) == (0, whole, b""), (words, number, status, err)
            assert (status, out, err) == (0, whole, b""), (words, status, err)
            print(f"{' '.join(words)} over {source}: {number - 1} allocations, each refused in turn: {ended[5]} times "
                  f"status 5 and a front of what it writes, {ended[0]} times status 0 and all of it")


if __name__ == "__main__":
    main()
