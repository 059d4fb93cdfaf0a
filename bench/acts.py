#!/usr/bin/env python3
"""Makes hands at a table of nine with raises, calls, short all-ins and checks on all streets, each won by folds.

`acts.py FOLDER` writes the lines of all hands to FOLDER/hands and those of the first half to FOLDER/half. One player,
the short one, keeps a small stack, and all others have plenty. By turns the hands are played to the river by others,
won by the short one with a short all-in before the flop, and won by him with one on the flop; where he has much he
first loses it by a raise that he gives up.
"""
import sys

HANDS, SEATS, SHORT = 50_000, 9, 5
STACK = 1_000_000_000
PLAN = ["game holdem", "tables 1", f"seats {SEATS}", f"stack {STACK}", "buyin 100", "late 1", "blinds 100 200 100",
        "shares 700 300", "go"]
DECK = "".join(rank + suit for rank in "23456789TJQKA" for suit in "cdhs")


class Hand:
    """The lines of one hand, and what each player has put in."""

    def __init__(self, button, deck=DECK):
        self.from_left = [(button + step - 1) % SEATS + 1 for step in range(1, SEATS + 1)]
        small, big, *others = self.from_left
        self.order = others + [small, big]
        self.put = {small: 100, big: 200}
        self.street = dict(self.put)
        self.lines = [f"begin 1 {deck}"]

    def act(self, seat, act, to=None):
        """An act, after which the player has put in so much on the street."""
        if to is not None:
            self.put[seat] = self.put.get(seat, 0) + to - self.street.get(seat, 0)
            self.street[seat] = to
        self.lines.append(f"act 1 p{seat} {act}")

    def raise_to(self, seat, level):
        self.act(seat, f"raise {level}", level)

    def bet(self, seat, level):
        self.act(seat, f"bet {level}", level)

    def call(self, seat, level):
        self.act(seat, "call", level)

    def fold(self, *seats):
        for seat in seats:
            self.act(seat, "fold")

    def check(self, *seats):
        for seat in seats:
            self.act(seat, "check")

    def next_street(self):
        self.street = {}

    def gain(self, seat, winner):
        """What a player has more after the hand than before."""
        return (sum(self.put.values()) if seat == winner else 0) - self.put.get(seat, 0)


def call_or_fold(hand, level, callers):
    """The first player raises, the callers call, and all others fold, each in turn."""
    first, *others = hand.order
    hand.raise_to(first, level)
    for seat in others:
        if seat in callers:
            hand.call(seat, level)
        else:
            hand.fold(seat)
    hand.next_street()


def to_the_river(hand):
    """Four of those with plenty see the flop, and three of them the river."""
    order = [seat for seat in hand.order if seat != SHORT]
    callers = [order[1], order[4], order[7]]
    for seat in hand.order[:hand.order.index(order[0])]:
        hand.fold(seat)
    hand.order = hand.order[hand.order.index(order[0]):]
    call_or_fold(hand, 400, callers)
    one, two, three, four = [seat for seat in hand.from_left if seat in [order[0], *callers]]
    hand.check(one)
    hand.bet(two, 200)
    hand.call(three, 200)
    hand.raise_to(four, 400)
    hand.fold(one)
    hand.call(two, 400)
    hand.call(three, 400)
    hand.next_street()
    hand.check(two, three, four)
    hand.next_street()
    hand.bet(two, 200)
    hand.raise_to(three, 400)
    hand.fold(four, two)
    return three


def short_before_the_flop(hand, stack):
    """The first raises by all but 100 of what the short one has, and he goes all-in over it."""
    first, *others = hand.order
    caller = others[0] if others[0] != SHORT else None
    hand.raise_to(first, stack - 100)
    for seat in others:
        if seat == SHORT:
            hand.act(seat, "allin", stack)
        elif seat == caller:
            hand.call(seat, stack - 100)
        else:
            hand.fold(seat)
    hand.fold(first, *([caller] if caller else []))
    return SHORT


def short_on_the_flop(hand, stack):
    """The short one calls, and goes all-in over a bet of all but 100 of what he has behind."""
    first = hand.order[0]
    call_or_fold(hand, 400, [SHORT])
    behind = stack - 400
    if hand.from_left.index(SHORT) < hand.from_left.index(first):
        hand.check(SHORT)
    hand.bet(first, behind - 100)
    hand.act(SHORT, "allin", behind)
    hand.fold(first)
    return SHORT


def give_up(hand, level):
    """The short one raises, is raised, and folds."""
    place = hand.order.index(SHORT)
    before, behind = hand.order[:place], hand.order[place + 1:]
    winner = behind[0] if behind else before[0]
    if behind:
        hand.fold(*before)
    else:
        hand.raise_to(winner, 400)
        hand.fold(*before[1:])
    hand.raise_to(SHORT, level)
    hand.raise_to(winner, 2 * level)
    hand.fold(*behind[1:], SHORT)
    return winner


def play(hand, number, stack):
    """Plays a hand by its number and by what the short one has, and gives the winner."""
    first_is_short = hand.order[0] == SHORT
    if stack > 3000:
        return give_up(hand, min(stack - 1000, STACK // 2))
    if number % 3 == 1 and not first_is_short:
        return short_before_the_flop(hand, stack)
    if number % 3 == 2 and not first_is_short and stack >= 1100:
        return short_on_the_flop(hand, stack)
    return to_the_river(hand)


def main():
    stack = STACK
    with open(sys.argv[1] + "/hands", "w", encoding="ascii") as whole, \
            open(sys.argv[1] + "/half", "w", encoding="ascii") as half:
        def put(lines, number):
            text = "\n".join(lines) + "\n"
            whole.write(text)
            if number < HANDS // 2:
                half.write(text)
        put(PLAN + [f"enter p{seat} 1 {seat}" for seat in range(1, SEATS + 1)], 0)
        for number in range(HANDS):
            hand = Hand(number % SEATS + 1)
            winner = play(hand, number, stack)
            stack += hand.gain(SHORT, winner)
            put(hand.lines + ["settle 1"], number)


if __name__ == "__main__":
    main()
