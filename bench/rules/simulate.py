"""A tournament that is made from a number and a plan, and what is told of it."""
import itertools

from rules.cards import text_of
from rules.director import is_lawful, next_order, simulated_act
from rules.draws import deck_of, seed_of
from rules.lines import act_line, event_of_line
from rules.step import apply
from rules.tournament import Tournament

MOST_HANDS = 20_000
ROUNDS_OF_A_LEVEL = 10


class Simulation:
    """Plays the simulation of a number over the lines of a plan; `lines` are its events. The number of a draw is that
    of the events before it."""

    def __init__(self, number, plan):
        self.number, self.seed = number, seed_of(number)
        self.book, self.lines, self.hands = Tournament(), [], 0
        for line in [*plan, "go"]:
            self.take(line)
        self.enter_all()
        self.play_rounds()

    def take(self, line):
        """The next event, which has to be accepted."""
        answer = apply(self.book, event_of_line(line.encode()))
        if answer != "ok":
            raise ValueError(f"{line}: {answer}")
        self.lines.append(line)

    def enter_all(self):
        """A player for each seat: at the table with the lowest count, in the lowest empty seat."""
        book, seats = self.book, range(1, self.book.plan["seats"] + 1)
        for entry in range(1, len(book.tables) * len(seats) + 1):
            counts = book.counts()
            table = min(counts, key=counts.get)
            self.take(f"enter p{entry} {table} {next(seat for seat in seats if (table, seat) not in book.seats)}")

    def play_rounds(self):
        """Each table has its turn in each round, until the tournament is over or there were enough hands, or until no
        hand was played in a round."""
        for count in itertools.count(1):
            hands = self.hands
            for table in self.book.tables:
                self.have_turn(table)
                if self.book.is_over() or self.hands == MOST_HANDS:
                    self.take("stop")
                    return
            if self.hands == hands:
                self.take("stop")
                return
            if count % ROUNDS_OF_A_LEVEL == 0 and self.book.level < len(self.book.blinds):
                self.next_level()

    def have_turn(self, table):
        """The orders that are owed, and a hand where one may begin."""
        while order := next_order(self.book, self.seed, len(self.lines)):
            self.take(order)
        begin = f"begin {table} {self.deck()}"
        if is_lawful(self.book, begin):
            self.take(begin)
            self.play_hand(table, self.book.tables[table].hand)

    def play_hand(self, table, hand):
        while not hand.is_over():
            self.take(act_line(table, hand.names[hand.due()], simulated_act(hand, self.seed, len(self.lines))))
        self.take(f"settle {table}")
        self.hands += 1

    def next_level(self):
        """The next level, and the race at each table where one is pending."""
        self.take("level")
        for number, table in self.book.tables.items():
            if table.pending:
                self.take(f"race {number} {self.deck()}")

    def deck(self):
        return text_of(deck_of(self.seed, len(self.lines)))

    def told(self):
        """How many hands and events there were and how many players are left, and the report."""
        return [f"simulate {self.number}", f"hands {self.hands}", f"events {len(self.lines)}",
                f"left {len(self.book.seats)}", *self.book.report()]
