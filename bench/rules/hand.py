"""Marks and one hand by the rules: the deal, the blinds, who is due, the acts, and the stacks after the hand."""
from dataclasses import dataclass
from typing import NamedTuple

from rules.cards import awards_of, seats_clockwise


@dataclass(frozen=True)
class Marks:
    """The seats of button, small and big blind, and the seats that wait."""

    button: int
    small: int
    big: int
    waiting: frozenset = frozenset()


def first_clockwise(after, seats, wanted):
    """The first of the wanted seats, clockwise from the one after a seat; that seat itself comes last."""
    return next(seat for seat in seats_clockwise(after, seats) if seat in wanted)


def first_counter_clockwise(before, seats, wanted):
    return next(seat for seat in reversed(seats_clockwise(before - 1, seats)) if seat in wanted)


def next_big(old, seats, occupied):
    """Who will be the next big blind: by the first hand's rule where the table had no hand."""
    return next_marks(old, seats, occupied).big


def next_marks(old, seats, occupied):
    """The marks of a table's next hand, where two or more seats are occupied."""
    if old is None:
        return first_marks(seats, occupied)
    big = first_clockwise(old.big, seats, occupied)
    if len(occupied) == 2:
        other = first_clockwise(big, seats, occupied)
        return Marks(other, other, big)
    small, button = old.big, old.small
    between = seats_clockwise(button, seats)
    between = between[:between.index(small)]
    waiting = frozenset(occupied).intersection(between)
    if len(occupied) - len(waiting) < 3:
        return Marks(first_counter_clockwise(small, seats, occupied), small, big)
    return Marks(button, small, big, waiting)


def first_marks(seats, occupied):
    """At the first hand the button is at the lowest seat; with two players it is the small blind's."""
    button = min(occupied)
    second = first_clockwise(button, seats, occupied)
    if len(occupied) == 2:
        return Marks(button, button, second)
    return Marks(button, second, first_clockwise(second, seats, occupied))


class Blinds(NamedTuple):
    """The small and the big blind of a level, its unit, and the ante that the big blind posts."""

    small: int
    big: int
    unit: int
    ante: int = 0

    def numbers(self):
        """The numbers as they are written: the ante where there is one."""
        return tuple(self if self.ante else self[:3])


@dataclass(frozen=True)
class Act:
    """What a player does; a bet and a raise have an amount, and a raise is to it."""

    kind: str
    amount: int = 0


class Hand:
    """A hand in play. Seats are known by their numbers; `stacks` are those that the players began the hand with."""

    def __init__(self, game, seats, marks, blinds, names, stacks, deck=None, cap=0):
        self.game, self.seats, self.marks, self.cap = game, seats, marks, cap
        self.big_blind, self.unit = blinds.big, blinds.unit
        self.names, self.stacks, self.deck = dict(names), dict(stacks), deck
        self.live = set(stacks)
        self.before = dict.fromkeys(stacks, 0)
        self.put = dict.fromkeys(stacks, 0)
        self.lacking = self.ante = 0
        self.post(marks.small, blinds.small)
        self.post(marks.big, blinds.big)
        self.ante = min(self.behind(marks.big), blinds.ante)
        self.street = 0
        self.level = self.full_raise = self.big_blind
        self.wagers = 1
        self.acted = set()
        self.search_after = marks.big
        self.begin_streets()

    def post(self, seat, blind):
        """A dealt player in a mark's seat posts the lesser of his stack and the blind; an empty small mark nothing."""
        if seat in self.stacks:
            self.put[seat] = min(self.stacks[seat], blind)
            self.lacking += blind - self.put[seat]

    def put_in_hand(self, seat):
        return self.before[seat] + self.put[seat]

    def behind(self, seat):
        ante = self.ante if seat == self.marks.big else 0
        return self.stacks[seat] - self.put_in_hand(seat) - ante

    def all_put_in(self):
        """All that the players have put in, but for the ante."""
        return sum(self.put_in_hand(seat) for seat in self.stacks)

    def can_act(self):
        """The live players who are not all-in."""
        return [seat for seat in self.live if self.behind(seat) > 0]

    def nobody_is_asked(self):
        """One player alone is live, or he alone has chips and has put in at least what each other live player has."""
        if len(self.live) == 1:
            return True
        able = self.can_act()
        return len(able) == 1 and all(self.put[able[0]] >= self.put[seat] for seat in self.live)

    def due(self):
        """The first seat clockwise that can act, and has not acted on the street or has put in less than the level."""
        if self.nobody_is_asked():
            return None
        able = [seat for seat in self.can_act() if seat not in self.acted or self.put[seat] < self.level]
        return first_clockwise(self.search_after, self.seats, able) if able else None

    def is_over(self):
        return self.due() is None

    def begin_streets(self):
        """Where nobody is due and two or more can still act, the next street starts after the button."""
        while self.due() is None and self.street < 3 and not self.is_closed_for_good():
            for seat in self.stacks:
                self.before[seat] += self.put[seat]
                self.put[seat] = 0
            self.street += 1
            self.level, self.full_raise = 0, self.bet_of_street()
            self.wagers = 0
            self.acted = set()
            self.search_after = self.marks.button

    def is_closed_for_good(self):
        """On a later street nothing is put in yet, so somebody is due exactly where two or more can act."""
        return len(self.live) == 1 or len(self.can_act()) < 2

    def seat_of(self, name):
        return next((seat for seat in self.names if self.names[seat] == name), None)

    def bet_of_street(self):
        """The least bet: with fixed limit it is twice the big blind on the turn and the river."""
        return self.big_blind * (2 if self.cap and self.street >= 2 else 1)

    def bound(self, seat):
        """What a bet or raise is at most to. With fixed limit it is one bet above the level, and the level where there
        are as many wagers as the cap; else hold'em has no bound, and Omaha and hi-lo have that of the pot."""
        if self.cap:
            return self.level + (self.bet_of_street() if self.wagers < self.cap else 0)
        return None if self.game == "holdem" else self.pot_bound(seat)

    def pot_bound(self, seat):
        """Before the flop short blinds count in full, and the ante does not count."""
        pot = self.all_put_in() + (self.lacking if self.street == 0 else self.ante)
        return self.level + pot + (self.level - self.put[seat])

    def is_past_bound(self, seat, amount):
        bound = self.bound(seat)
        return bound is not None and amount > bound

    def may_not_reopen(self, seat):
        """He has acted on the street, and the level is above what he put in by less than a full raise, with fixed limit
        by less than half a bet."""
        if seat not in self.acted:
            return False
        faces = self.level - self.put[seat]
        return 2 * faces < self.bet_of_street() if self.cap else faces < self.full_raise

    def refusal(self, seat, act):
        """The lowest number of a refusal of an act by the player who is due, or none."""
        return next((number for number, holds in self.act_checks(seat, act) if holds), None)

    def act_checks(self, seat, act):
        put, level, amount, full = self.put[seat], self.level, act.amount, self.full_raise
        most = put + self.behind(seat)
        if act.kind == "check":
            return [(24, put < level)]
        if act.kind == "call":
            return [(25, put == level)]
        if act.kind == "bet":
            return [(26, level > 0), (28, amount < full and amount != most), (29, amount > most),
                    (30, self.is_past_bound(seat, amount)), (32, amount % self.unit != 0)]
        if act.kind == "raise":
            all_in_above = amount == most and amount > level
            return [(27, level == 0), (28, amount < level + full and not all_in_above), (29, amount > most),
                    (30, self.is_past_bound(seat, amount)), (31, self.may_not_reopen(seat)),
                    (32, amount % self.unit != 0)]
        if act.kind == "allin" and most > level:
            return [(30, self.is_past_bound(seat, most)), (31, self.may_not_reopen(seat))]
        return []

    def act(self, seat, act):
        """Carries out an act that is not refused."""
        most = self.put[seat] + self.behind(seat)
        if act.kind == "fold":
            self.live.remove(seat)
        elif act.kind == "call" or (act.kind == "allin" and most <= self.level):
            self.put[seat] = min(most, self.level)
        elif act.kind != "check":
            self.raise_to(seat, most if act.kind == "allin" else act.amount)
        self.acted.add(seat)
        self.search_after = seat
        self.begin_streets()

    def raise_to(self, seat, level):
        """A bet or raise puts in up to the new level; the full raise grows where the level rose by as much or more. It
        is a wager where the level rose by half a bet or more."""
        self.wagers += 2 * (level - self.level) >= self.bet_of_street()
        self.full_raise = max(self.full_raise, level - self.level)
        self.level = self.put[seat] = level

    def time(self):
        """A called time folds the player who is due where he has put in less than the level, else checks for him."""
        seat = self.due()
        self.act(seat, Act("fold" if self.put[seat] < self.level else "check"))

    def needs_showdown(self):
        return len(self.live) > 1

    def dealt_from_left(self):
        """The dealt seats clockwise from the seat after the button."""
        return [seat for seat in seats_clockwise(self.marks.button, self.seats) if seat in self.stacks]

    def hole_count(self):
        return 2 if self.game == "holdem" else 4

    def hole_places(self):
        """One card at a time goes round the dealt seats; the places of each seat's cards in the deck, in this order."""
        dealt = self.dealt_from_left()
        return {seat: [turn * len(dealt) + place for turn in range(self.hole_count())]
                for place, seat in enumerate(dealt)}

    def board_places(self):
        """A card is burned before the flop, the turn and the river."""
        burned = len(self.stacks) * self.hole_count()
        return [burned + place for place in (1, 2, 3, 5, 7)]

    def cards_at(self, places):
        return [self.deck[place] for place in places]

    def hole_cards(self):
        return {seat: self.cards_at(places) for seat, places in self.hole_places().items()}

    def board(self):
        return self.cards_at(self.board_places())

    def awards(self):
        """Where one player is live he gets everything, and else all live hands are shown."""
        put = {seat: self.put_in_hand(seat) for seat in sorted(self.stacks)}
        if not self.needs_showdown():
            return {next(iter(self.live)): self.all_put_in() + self.ante}
        return awards_of(self.game, put, self.ante, self.live, self.unit, self.marks.button, self.seats,
                         self.hole_cards(), self.board())

    def stacks_after(self):
        awards = self.awards()
        return {seat: self.behind(seat) + awards.get(seat, 0) for seat in self.stacks}
