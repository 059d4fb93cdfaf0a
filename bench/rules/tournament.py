"""The tournament: its state, what each event makes of it, and the report."""
from collections import Counter
from dataclasses import dataclass, field

from rules.hand import Hand, next_big, next_marks
from rules.places import standings_of


@dataclass
class Table:
    """How a table stands: its marks, its unit, the unit that it races to, the hand that it plays."""

    marks: object = None
    unit: int = 0
    pending: object = None
    hand: object = None
    dealt: dict = field(default_factory=dict)


class Tournament:
    def __init__(self):
        self.plan = {}
        self.blinds = []
        self.level = 0
        self.entries = []
        self.reentries = 0
        self.seats = {}
        self.stacks = {}
        self.tables = {}
        self.hand_for_hand = False
        self.round = set()
        self.busts = []
        self.group = 0
        self.removed = self.added = 0
        self.hands_begun = self.showdowns = self.entries_after_a_bust = 0
        self.antes = self.short_antes = self.missed_antes = 0
        self.stopped = False

    # -- what is read off the lists --

    def players_at(self, table):
        """The players of a table by seat, in rising seat."""
        return dict(sorted((seat, player) for (at, seat), player in self.seats.items() if at == table))

    def counts(self):
        """How many players sit at each table of the plan."""
        counts = Counter(at for at, _ in self.seats)
        return {table: counts[table] for table in self.tables}

    def count(self, table):
        return sum(at == table for at, _ in self.seats)

    def is_table(self, table):
        return 1 <= table <= self.plan["tables"]

    def is_open(self, table):
        return self.count(table) > 0

    def open_counts(self):
        return {table: count for table, count in self.counts().items() if count > 0}

    def open_tables(self):
        return list(self.open_counts())

    def is_playing(self, table):
        return self.is_table(table) and self.tables[table].hand is not None

    def playing_tables(self):
        return {table for table in self.tables if self.is_playing(table)}

    def place_of(self, player):
        return next((place for place, who in self.seats.items() if who == player), None)

    def has_race(self):
        return any(self.tables[table].pending for table in self.tables)

    def is_halted(self, table):
        """A table's count is lower than that of a fullest open table by the gap or more."""
        gap = 3 if self.plan["seats"] >= 7 else 2
        return max(self.open_counts().values()) - self.count(table) >= gap

    def is_over(self):
        """Somebody is out and exactly one player is in."""
        return bool(self.busts) and len(self.seats) == 1

    def counts_to_enter(self):
        """The counts of the tables that may be entered: before the first hand of the tournament any table of the plan,
        and an open one afterwards."""
        return self.counts() if self.hands_begun == 0 else self.open_counts()

    def next_big_at(self, table):
        return next_big(self.tables[table].marks, self.plan["seats"], list(self.players_at(table)))

    def worst_seat(self, table):
        """The first empty seat clockwise after the big mark, without the mark's own; else the lowest empty one."""
        seats, marks = self.plan["seats"], self.tables[table].marks
        order = range(1, seats + 1)
        if marks:
            order = [(marks.big + step - 1) % seats + 1 for step in range(1, seats)]
        return next(seat for seat in order if (table, seat) not in self.seats)

    def fill_list(self, table):
        """One seat after another at the other open table with the lowest count; None where there is no room."""
        counts = {other: count for other, count in self.open_counts().items() if other != table}
        chosen = []
        for _ in range(self.count(table)):
            roomy = [other for other in counts if counts[other] < self.plan["seats"]]
            if not roomy:
                return None
            other = min(roomy, key=lambda each: (counts[each], each))
            taken = set(self.seats) | set(chosen)
            seat = next(seat for seat in range(1, self.plan["seats"] + 1) if (other, seat) not in taken)
            chosen.append((other, seat))
            counts[other] += 1
        return chosen

    # -- what an accepted event does --

    def give(self, item, values):
        """A plan line: the next level of blinds, or an item that is there once."""
        if item == "blinds":
            self.blinds.append(values)
        else:
            self.plan[item] = values if item == "shares" else values[0]

    def go(self):
        self.level = 1
        self.tables = {table: Table(unit=self.blinds[0].unit) for table in range(1, self.plan["tables"] + 1)}

    def enter(self, player, table, seat):
        self.entries.append(player)
        self.sit_down(player, table, seat)
        self.entries_after_a_bust += bool(self.busts)

    def reenter(self, player, table, seat):
        """A player who is out is so no more; the place in the entry list stays."""
        self.busts = [bust for bust in self.busts if bust[0] != player]
        self.reentries += 1
        self.sit_down(player, table, seat)

    def sit_down(self, player, table, seat):
        """The plan's stack is sold to the player."""
        self.seats[table, seat] = player
        self.stacks[player] = self.plan["stack"]

    def begin(self, table, deck):
        """The hand has the next marks, who sits there and does not wait, the current level's blinds, ante and unit, and
        the cap of fixed limit."""
        at, players = self.tables[table], self.players_at(table)
        self.hands_begun += 1
        at.marks = next_marks(at.marks, self.plan["seats"], list(players))
        at.dealt = {seat: player for seat, player in players.items() if seat not in at.marks.waiting}
        stacks = {seat: self.stacks[player] for seat, player in at.dealt.items()}
        at.hand = Hand(self.plan["game"], self.plan["seats"], at.marks, self.blinds[self.level - 1], at.dealt, stacks,
                       deck, self.plan.get("limit", 0))
        self.count_ante(at.hand.ante)
        for player in at.dealt.values():
            self.stacks[player] = 0
        if self.hand_for_hand:
            self.round.add(table)

    def count_ante(self, posted):
        """Whether the big blind posted the level's ante, less of it or none."""
        ante = self.blinds[self.level - 1].ante
        self.antes += posted == ante > 0
        self.short_antes += 0 < posted < ante
        self.missed_antes += posted == 0 < ante

    def act(self, table, player, act):
        hand = self.tables[table].hand
        hand.act(hand.seat_of(player), act)

    def time(self, table):
        self.tables[table].hand.time()

    def settle(self, table):
        """The players have their stacks at rest; those with 0 are out, with the stack that they began the hand with."""
        hand = self.end_hand(table)
        self.showdowns += hand.needs_showdown()
        for seat, stack in hand.stacks_after().items():
            player = hand.names[seat]
            self.stacks[player] = stack
            if stack == 0:
                del self.seats[self.place_of(player)]
                self.busts.append((player, hand.stacks[seat], self.group))
        if not self.hand_for_hand:
            self.group += 1

    def end_hand(self, table):
        at = self.tables[table]
        hand, at.hand, at.dealt = at.hand, None, {}
        return hand

    def move(self, player, to):
        del self.seats[self.place_of(player)]
        self.seats[to] = player

    def balance(self, table, to):
        """The player who will be the next big blind goes to the worst seat."""
        player = self.seats[table, self.next_big_at(table)]
        self.move(player, (to, self.worst_seat(to)))

    def break_table(self, table, places, names):
        for player, to in zip(names, places):
            self.move(player, to)
        self.tables[table].marks = None

    def next_level(self):
        """The next level is current at once; where its unit is greater, open tables race to it, others take it."""
        self.level += 1
        unit = self.blinds[self.level - 1].unit
        for number_, table in self.tables.items():
            if not self.is_open(number_):
                table.unit, table.pending = unit, None
            elif unit > table.unit:
                table.pending = unit

    def race(self, table, deck):
        """Odd chips are raced for with one card each; who is left with nothing gets a chip."""
        at = self.tables[table]
        unit, players = at.pending, self.players_at(table).values()
        odd = {player: self.stacks[player] % unit for player in players}
        cards = iter(deck)
        best = {player: max(next(cards) for _ in range(odd[player] // at.unit)) for player in players if odd[player]}
        winners = sorted(best, key=lambda player: best[player], reverse=True)[:sum(odd.values()) // unit]
        for player in players:
            self.stacks[player] += (unit if player in winners else 0) - odd[player]
            self.added += unit if player in winners else 0
            if self.stacks[player] == 0:
                self.stacks[player] = unit
                self.added += unit
        self.removed += sum(odd.values())
        at.unit, at.pending = unit, None

    def hands(self, switch):
        """`on` makes the playing tables those that have begun in the round; `off` ends the round."""
        self.hand_for_hand = switch == "on"
        if switch == "on":
            self.round = self.playing_tables()
        else:
            self.end_round()

    def end_round(self):
        self.round = set()
        self.group += 1

    def stop(self):
        """Hands in play are void: their players have the stacks that they began them with."""
        for table in self.playing_tables():
            hand = self.end_hand(table)
            for seat, stack in hand.stacks.items():
                self.stacks[hand.names[seat]] = stack
        self.stopped = True

    # -- the report --

    def in_play(self):
        return sum(sum(self.tables[table].hand.stacks.values()) for table in self.playing_tables())

    def times_entered(self):
        """The entries and the re-entries together."""
        return len(self.entries) + self.reentries

    def sold(self):
        return self.times_entered() * self.plan.get("stack", 0)

    def rest(self):
        return sum(self.stacks[player] for player in self.seats.values())

    def report(self):
        lines = ["* report", f"* level {self.level}", f"* sold {self.sold()}", f"* removed {self.removed}",
                 f"* added {self.added}", f"* rest {self.rest()}", f"* play {self.in_play()}"]
        for (table, seat), player in sorted(self.seats.items()):
            playing = player in self.tables[table].dealt.values()
            lines.append(f"* seat {table} {seat} {player} {'play' if playing else self.stacks[player]}")
        lines += [f"* out {rank} {player} {prize}" for rank, player, prize in standings_of(self)]
        return lines + ["* end"]
