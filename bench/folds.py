#!/usr/bin/env python3
"""Makes hands of folds at a table of nine: `folds.py FOLDER` writes the lines of all hands to FOLDER/hands and those of
the first half to FOLDER/half. At the first hand the seats 1, 2 and 3 have the button, the small and the big blind, and
at each later hand the marks are one seat further. The seat after the big blind is the first to fold, and the big blind
is left alone. All hands have the deck in order; with `folds.py FOLDER shuffled` each has a row of its own, shuffled from
a seed, as no two decks at a table are alike.
"""
import random
import sys

HANDS, SEATS = 100_000, 9
PLAN = ["game holdem", "tables 1", f"seats {SEATS}", "stack 1000000", "buyin 100", "late 1", "blinds 100 200 100",
        "shares 700 300", "go"]
CARDS = [rank + suit for rank in "23456789TJQKA" for suit in "cdhs"]


def main():
    folder, *shuffled = sys.argv[1:]
    rng = random.Random("folds")
    with open(folder + "/hands", "w", encoding="ascii") as whole, open(folder + "/half", "w", encoding="ascii") as half:
        def put(lines, hand):
            text = "\n".join(lines) + "\n"
            whole.write(text)
            if hand < HANDS // 2:
                half.write(text)
        put(PLAN + [f"enter p{seat} 1 {seat}" for seat in range(1, SEATS + 1)], 0)
        for hand in range(HANDS):
            big = (2 + hand) % SEATS + 1
            folds = [f"act 1 p{(big + step) % SEATS + 1} fold" for step in range(SEATS - 1)]
            row = "".join(rng.sample(CARDS, 52) if shuffled else CARDS)
            put(["begin 1 " + row] + folds + ["settle 1"], hand)


if __name__ == "__main__":
    main()
