#!/usr/bin/env python3
"""Makes hands at one table or at many tables of nine, at all tables in turn, with moves between them.

`tables.py TABLES LINES FILE` writes so many lines to FILE. All seats are taken at first, and nearly all hands are won
by folds. Now and then two players lose all at one table; where there are others, one of another table is moved there by
a balance, and two newcomers take the seats that are free. When there may be no more newcomers, so many lose all that
the last table can be broken. The model knows who sits where and which marks come next.
"""
import sys

from rules.cards import SORTED_DECK, seats_clockwise, text_of
from rules.checks import MOST_ENTRIES
from rules.hand import next_marks
from rules.lines import break_line, event_of_line
from rules.step import apply
from rules.tournament import Tournament

SEATS, STACK, SMALL, BIG = 9, 1_000_000, 100, 200
HANDS_BETWEEN = 2500
PLAN = ["game holdem", f"seats {SEATS}", f"stack {STACK}", "buyin 100", "late 1", f"blinds {SMALL} {BIG} 100",
        "shares 700 300"]
DECK = text_of(SORTED_DECK)


def deck_for(place, dealt):
    """The deck in order, but the player at a place of the deal has two aces, and nobody else has a better hand."""
    aces = [(14, 3), (14, 2)]
    cards = [card for card in SORTED_DECK if card not in aces]
    cards.insert(place, aces[0])
    cards.insert(dealt + place, aces[1])
    return text_of(cards)


class Lines:
    """The lines so far, and the tournament on the model; the hands are played here, since all are of two kinds."""

    def __init__(self, tables):
        self.book, self.lines = Tournament(), []
        for line in [*PLAN, f"tables {tables}", "go"]:
            self.order(line)
        self.newcomers = 0
        for seat in range(1, SEATS + 1):
            for table in range(1, tables + 1):
                self.enter(table, seat)

    def order(self, line):
        """A line that the model carries out."""
        if apply(self.book, event_of_line(line.encode())) != "ok":
            raise ValueError(line)
        self.lines.append(line)

    def enter(self, table, seat):
        self.newcomers += 1
        self.order(f"enter p{self.newcomers:03} {table} {seat}")

    def begin(self, table):
        """The next marks of a table, and its players who are dealt in, from the first to act to the big blind."""
        players = self.book.players_at(table)
        marks = self.book.tables[table].marks = next_marks(self.book.tables[table].marks, SEATS, list(players))
        self.book.hands_begun += 1
        order = [seat for seat in seats_clockwise(marks.big, SEATS) if seat in players and seat not in marks.waiting]
        return marks, order, players

    def hand_of_folds(self, table):
        """All fold to the big blind, who wins the small one."""
        marks, order, players = self.begin(table)
        self.lines.append(f"begin {table} {DECK}")
        self.lines += [f"act {table} {players[seat]} fold" for seat in order[:-1]]
        self.lines.append(f"settle {table}")
        if marks.small in order:
            self.book.stacks[players[marks.small]] -= SMALL
            self.book.stacks[players[marks.big]] += SMALL

    def hand_of_two(self, table):
        """All fold but the last two; both are all-in, and the one with fewer chips goes out."""
        marks, order, players = self.begin(table)
        stacks = self.book.stacks
        *others, first, last = order
        winner, loser = sorted((first, last), key=lambda seat: stacks[players[seat]], reverse=True)
        from_left = [seat for seat in seats_clockwise(marks.button, SEATS) if seat in order]
        self.lines.append(f"begin {table} {deck_for(from_left.index(winner), len(order))}")
        self.lines += [f"act {table} {players[seat]} fold" for seat in others]
        self.lines += [f"act {table} {players[first]} allin", f"act {table} {players[last]} call", f"settle {table}"]
        small = SMALL if marks.small in others else 0
        if small:
            stacks[players[marks.small]] -= small
        stacks[players[winner]] += stacks[players[loser]] + small
        del self.book.seats[table, loser]
        self.book.busts.append((players[loser], stacks.pop(players[loser]), 0))

    def balance_to(self, table):
        """A player of a fullest table moves to this one."""
        counts = self.book.open_counts()
        self.order(f"balance {max(counts, key=counts.get)} {table}")

    def change_players(self, table):
        """Two go out, one is moved there, and two newcomers take the seats that are free."""
        self.lose_players(table, 2)
        for _ in range(2):
            counts = self.book.open_counts()
            fewest = min(counts, key=counts.get)
            self.enter(fewest, next(seat for seat in range(1, SEATS + 1) if (fewest, seat) not in self.book.seats))

    def break_last(self):
        """Players go out, two at a table with one moved there, until the last table can be broken."""
        *others, last = self.book.open_tables()
        while len(self.book.seats) > len(others) * SEATS:
            counts = self.book.open_counts()
            self.lose_players(max(others, key=counts.get), len(self.book.seats) - len(others) * SEATS)
        self.order(break_line(last, self.book.fill_list(last), self.book.players_at(last).values()))

    def lose_players(self, table, wanted):
        """At most two players go out at a table; where that leaves it two short, one is moved there."""
        for _ in range(min(wanted, 2)):
            self.hand_of_two(table)
        counts = self.book.open_counts()
        if max(counts.values()) - counts[table] >= 2:
            self.balance_to(table)

    def change(self, number):
        """The next change of players, or the next break where there may be no more newcomers."""
        tables = self.book.open_tables()
        if len(self.book.entries) + 2 <= MOST_ENTRIES:
            self.change_players(tables[number * 7 % len(tables)])
        elif len(tables) > 1:
            self.break_last()

    def play(self, count):
        """Hands at all tables in turn, with a change at each so many."""
        tables, table, hands = self.book.open_tables(), 0, 0
        while len(self.lines) < count:
            table = next((each for each in tables if each > table), tables[0])
            self.hand_of_folds(table)
            hands += 1
            if hands % HANDS_BETWEEN == 0:
                self.change(hands // HANDS_BETWEEN)
                tables = self.book.open_tables()


def main():
    tables, count, path = int(sys.argv[1]), int(sys.argv[2]), sys.argv[3]
    lines = Lines(tables)
    lines.play(count)
    with open(path, "w", encoding="ascii") as file:
        file.writelines(line + "\n" for line in lines.lines[:count])


if __name__ == "__main__":
    main()
