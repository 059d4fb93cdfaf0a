#!/usr/bin/env python3
"""Makes hands at a table of nine that come to a showdown of three to six players.

`showdowns.py GAME FOLDER` writes the lines of all hands to FOLDER/hands and those of the first half to FOLDER/half.
Each hand has a row of its own, shuffled from a seed. The first player raises, some call, one of whom folds to a bet on
the flop, and the others bet and call on the flop and the river and check on the turn. The stacks are so large that
nobody goes broke.
"""
import random
import sys

from acts import PLAN, SEATS, Hand, call_or_fold

HANDS = 20_000
CARDS = [rank + suit for rank in "23456789TJQKA" for suit in "cdhs"]


def bet_and_call(hand, seats, level):
    """The first of the players bets, and the others call."""
    first, *others = seats
    hand.bet(first, level)
    for seat in others:
        hand.call(seat, level)


def play(hand, number):
    """Plays a hand to a showdown of three to six players, by its number."""
    count = 3 + number % 4
    first, *others = hand.order
    shift = number % len(others)
    callers = (others[shift:] + others[:shift])[:count]
    call_or_fold(hand, 400, callers)
    live = [seat for seat in hand.from_left if seat in [first, *callers]]
    *live, last = live
    bet_and_call(hand, live, 200)
    hand.fold(last)
    hand.next_street()
    hand.check(*live)
    hand.next_street()
    bet_and_call(hand, live, 400)


def main():
    game, folder = sys.argv[1:]
    rng = random.Random(game)
    with open(folder + "/hands", "w", encoding="ascii") as whole, open(folder + "/half", "w", encoding="ascii") as half:
        def put(lines, number):
            text = "\n".join(lines) + "\n"
            whole.write(text)
            if number < HANDS // 2:
                half.write(text)
        plan = [f"game {game}", *PLAN[1:]]
        put(plan + [f"enter p{seat} 1 {seat}" for seat in range(1, SEATS + 1)], 0)
        for number in range(HANDS):
            hand = Hand(number % SEATS + 1, "".join(rng.sample(CARDS, 52)))
            play(hand, number)
            put(hand.lines + ["settle 1"], number)


if __name__ == "__main__":
    main()
