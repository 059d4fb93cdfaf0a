"""A tournament as it is served: the hands that lie at their tables, the worker of each table, and what is told of the
floor and of each table, line by line."""
from rules.cards import SORTED_DECK, text_of
from rules.checks import NAMES, refusal
from rules.director import drawn_break, next_order
from rules.draws import deck_of
from rules.lines import Event, event_of_line
from rules.tournament import Tournament
from rules.views import Moment, Told, View


class Served(View):
    """The journal is the list of what was accepted, but for acts; `entries` counts it. A hand lies at its table until its
    worker takes it away, also where the stop has made it void."""

    def __init__(self, plan, seed):
        self.book, self.begun, self.seed, self.entries = Tournament(), [], seed, 0
        self.floor_lines, self.table_lines, self.hands = [], {}, {}
        for line in [*plan, "go"]:
            self.write(line)
        for table in self.book.tables:
            self.table_lines[table], self.hands[table] = [], None

    def floor(self, line):
        self.floor_lines.append(f"# {line}")

    def table(self, table, line, own=None):
        self.table_lines[table].append(Told(f"{table}: {line}", own))

    def write(self, line):
        """Answers an event by the number of its refusal, if it is refused; else it is the journal's next entry."""
        event = event_of_line(line.encode())
        number = refusal(self.book, event)
        if number is None:
            self.take(self.entries, line, event)
            self.entries += 1
        return number

    def write_dealt(self, word, table):
        """The same of a hand's begin or a race, with the next deck; no deck is the cause of a refusal."""
        number = refusal(self.book, Event(word, (table, SORTED_DECK)))
        return number or self.write(f"{word} {table} {text_of(deck_of(self.seed, self.entries))}")

    # -- what the floor asks for --

    def order(self, word, args):
        """An order of the floor, with its deck or its draw filled in."""
        if word == "next":
            return self.next_order()
        if word == "break":
            return self.break_by_draw(*args)
        if word == "race":
            return answer(self.write_dealt("race", *args))
        return answer(self.write(" ".join(map(str, (word, *args)))))

    def break_by_draw(self, table):
        line = drawn_break(self.book, table, self.seed, self.entries)
        return answer(self.write(line) if line else refusal(self.book, Event("break", (table, (), ()))))

    def owed(self):
        """The order that is owed, if one is."""
        return next_order(self.book, self.seed, self.entries) if self.book.open_counts() else None

    def next_order(self):
        if self.book.stopped:
            return answer(5)
        line = self.owed()
        return answer(self.write(line)) if line else "none"

    # -- what is done at a table --

    def refused_at(self, table):
        """Why nothing is done at a table: there is none, or no hand lies there."""
        if not self.book.is_table(table):
            return 8
        return 14 if self.hands[table] is None else None

    def refused_act(self, table, player, act):
        hand = self.hands[table]
        seat, due = hand.seat_of(player), hand.due()
        if seat is None:
            return 20
        if due is None:
            return 22
        return 21 if due != seat else hand.refusal(seat, act)

    def play(self, table, player, act):
        """A player acts. Answers why not, if he may not."""
        number = self.refused_at(table) or self.refused_act(table, player, act)
        if number is None:
            hand = self.hands[table]
            before = Moment(hand)
            hand.act(before.seat, act)
            self.act(table, hand, before)
        return number

    def call_time(self, table):
        """Time is called. Answers why not, and else who was due and whether they fold or check."""
        number = self.refused_at(table) or (22 if self.hands[table].is_over() else None)
        if number:
            return number, None, None
        hand = self.hands[table]
        before = Moment(hand)
        hand.time()
        self.act(table, hand, before)
        return None, hand.names[before.seat], "check" if before.seat in hand.live else "fold"


class Worker:
    """The worker of a table: begins hands, settles those that are over, and then asks for the orders that are owed."""

    def __init__(self, served, table):
        self.served, self.at, self.asks, self.gone = served, table, False, False

    def turn(self):
        """Says what a turn did."""
        served = self.served
        hand = served.hands[self.at]
        if served.book.stopped:
            served.hands[self.at], self.gone = None, True
            return "Ended"
        if hand:
            return self.settle() if hand.is_over() else "Lying"
        if self.asks:
            order = served.owed()
            if order:
                served.write(order)
                return "Ordered"
            self.asks = False
        return self.begin()

    def settle(self):
        self.served.hands[self.at] = None
        self.served.write(f"settle {self.at}")
        self.asks = True
        return "Settled"

    def begin(self):
        number = self.served.write_dealt("begin", self.at)
        if number:
            return f"NotNow {number}"
        self.served.hands[self.at] = self.served.book.tables[self.at].hand
        return "Opened"


def answer(number):
    """The text of an answer: `ok`, or the number and the name of a refusal."""
    return f"no {number} {NAMES[number]}" if number else "ok"
