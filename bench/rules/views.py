"""A player's lines: what everybody is told of each accepted event of a list, and what one player alone is told."""
from dataclasses import dataclass

from rules.cards import text_of
from rules.hand import Hand
from rules.lines import event_of_line, lines_of
from rules.step import apply
from rules.tournament import Tournament

STREETS = ("flop", "turn", "river")
# How many cards of the board there are before each street, and behind the last.
CARDS_BEFORE = (0, 3, 4, 5)


@dataclass(frozen=True)
class Told:
    """A line, and the player who alone is told it; nobody where all are."""

    line: str
    own: str = None


class Moment:
    """How a hand stands before an act: the street, who is due, the bet level, and what that player has put in on the
    street and in the hand."""

    def __init__(self, hand):
        self.street, self.level, self.seat = hand.street, hand.level, hand.due()
        self.put, self.paid = hand.put[self.seat], hand.put_in_hand(self.seat)


@dataclass(frozen=True)
class Begun:
    """A hand that began, and the line of the list that began it."""

    number: int
    hand: Hand


class View:
    """Plays a list of events, and keeps what is told of it and the hands that began in it."""

    def __init__(self, text):
        self.book, self.told, self.begun = Tournament(), [], []
        for number, line in enumerate(lines_of(text)):
            event = event_of_line(line)
            if event and event.word != "*":
                self.take(number, line.decode("ascii"), event)

    def lines_for(self, player=None):
        """What a player is told, or whoever plays in no hand."""
        return [told.line for told in self.told if told.own in (None, player)]

    def take(self, number, line, event):
        """Refused events are not told. A hand is looked at before its act, and before its settlement takes it away."""
        hand = self.hand_of(event)
        before = Moment(hand) if hand and not hand.is_over() else None
        if apply(self.book, event) != "ok":
            return
        if event.word == "begin":
            self.begin(event.args[0], number)
        elif event.word in ("act", "time"):
            self.act(event.args[0], hand, before)
        elif event.word == "settle":
            self.floor(f"settle {event.args[0]}")
            self.stacks(event.args[0], hand.names)
        elif event.word == "race":
            self.floor(f"race {event.args[0]}")
            self.stacks(event.args[0], self.book.players_at(event.args[0]))
        else:
            self.floor(line)

    def hand_of(self, event):
        """The hand that an act, a called time or a settlement is of."""
        if event.word not in ("act", "time", "settle"):
            return None
        at = self.book.tables.get(event.args[0])
        return at and at.hand

    # -- what is told --

    def floor(self, line):
        self.told.append(Told(f"# {line}"))

    def table(self, table, line, own=None):
        self.told.append(Told(f"{table}: {line}", own))

    def stacks(self, table, names):
        """The stacks at rest of players by seat, in rising seat; who is out has nothing."""
        for seat, player in sorted(names.items()):
            self.floor(f"stack {table} {seat} {player} {self.book.stacks[player]}")

    def begin(self, table, number):
        """The opening of a hand. Who is dealt in is told their cards, and nobody else is."""
        hand, serial = self.book.tables[table].hand, self.book.hands_begun
        self.begun.append(Begun(number, hand))
        self.floor(f"begin {table} {serial}")
        self.table(table, f"hand {serial} {hand.marks.button} {hand.marks.small} {hand.marks.big}")
        for seat, stack in sorted(hand.stacks.items()):
            self.table(table, f"seat {seat} {hand.names[seat]} {stack}")
        for seat in (hand.marks.small, hand.marks.big):
            if seat in hand.stacks:
                self.table(table, f"post {hand.names[seat]} {hand.put_in_hand(seat)}")
        if hand.ante:
            self.table(table, f"ante {hand.names[hand.marks.big]} {hand.ante}")
        for seat, cards in hand.hole_cards().items():
            self.table(table, f"hole {text_of(cards)}", own=hand.names[seat])
        self.follow(table, hand, 0)

    def act(self, table, hand, before):
        self.table(table, f"{hand.names[before.seat]} {act_words(hand, before)}")
        self.follow(table, hand, before.street)

    def follow(self, table, hand, street):
        """What comes behind an opening or an act on a street: the streets that are reached, or the end of the hand."""
        if not hand.is_over():
            self.streets(table, hand, street, hand.street)
            return
        if hand.needs_showdown():
            self.show(table, hand)
            self.streets(table, hand, street, len(STREETS))
        awards = hand.awards()
        for seat in hand.dealt_from_left():
            if awards.get(seat, 0) > 0:
                self.table(table, f"win {hand.names[seat]} {awards[seat]}")

    def streets(self, table, hand, after, last):
        """The cards of each street behind one, up to another."""
        for street in range(after, last):
            cards = hand.board()[CARDS_BEFORE[street]:CARDS_BEFORE[street + 1]]
            self.table(table, f"{STREETS[street]} {text_of(cards)}")

    def show(self, table, hand):
        """All live hands, clockwise from the seat after the button."""
        hole = hand.hole_cards()
        for seat in hand.dealt_from_left():
            if seat in hand.live:
                self.table(table, f"show {hand.names[seat]} {text_of(hole[seat])}")


def act_words(hand, before):
    """An act by what it did: a call by the chips that were put in, a bet and a raise by the level that was reached."""
    if before.seat not in hand.live:
        return "fold"
    chips = hand.put_in_hand(before.seat) - before.paid
    if chips == 0:
        return "check"
    if before.put + chips <= before.level:
        return f"call {chips}"
    return f"{'raise' if before.level else 'bet'} {before.put + chips}"


def shown_places(hand, player):
    """The places of the deck whose cards a player is told by the end of the list: the own ones, those of each street on
    which somebody was due, and where the hand became over with two or more live those of the board and of the live."""
    hole, board = hand.hole_places(), hand.board_places()
    shown = set(hole.get(hand.seat_of(player), []))
    shown.update(board[:CARDS_BEFORE[hand.street]])
    if hand.is_over() and hand.needs_showdown():
        shown.update(board, *(hole[seat] for seat in hand.live))
    return shown
