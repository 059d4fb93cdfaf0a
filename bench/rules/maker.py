"""Makes lists of events from a seed, lawful and unlawful, so that each answer comes often."""
import random

from rules.cards import SORTED_DECK, text_of
from rules.crowds import crowd, crowd_at_one_table, hall
from rules.hand import Blinds
from rules.lines import blinds_line, break_line, event_of_line
from rules.step import apply
from rules.tournament import Tournament

PLAYERS = ["ann", "bob", "cat", "dan", "eve", "fay", "gus", "hal", "ida", "jim", "kim", "leo"]
CARDS = [text_of([card]) for card in SORTED_DECK]
NO_LINE_FEED = [chr(byte) for byte in range(256) if byte != 10]


class Maker:
    """Makes one list. It plays the list on the model as it goes, so that it knows what would be lawful. A character of
    a line stands for the byte of its number."""

    def __init__(self, seed):
        self.rng = random.Random(seed)
        self.book = Tournament()
        self.lines = []
        self.answers = []
        self.entered = 0
        self.is_wild, self.has_antes, self.has_cap = self.odds(40), self.odds(60), self.odds(45)
        self.returns = self.rng.choice([1, 8, 25])

    def put(self, line):
        event = event_of_line(line.encode("latin-1"))
        self.answers.append(apply(self.book, event) if event else "no 1 Syntax")
        self.lines.append(line)

    def text(self):
        return "\n".join(self.lines).encode("latin-1")

    def odds(self, percent):
        return self.rng.random() * 100 < percent

    def pick(self, *choices):
        """One of the choices; a choice with a number before it is as likely as so many."""
        weights = [choice[0] for choice in choices]
        return self.rng.choices([choice[1] for choice in choices], weights)[0]

    # -- the plan --

    def plan(self):
        """The lines of a plan, now and then with a wrong line before a right one, or with an item missing."""
        rng = self.rng
        unit = rng.choice([1, 5, 10, 25, 50, 100])
        blinds = self.levels(unit)
        stack = blinds[-1].unit * rng.choice([1, 2, 3, 5, 8, 20, 20, 50, 50, 100])
        if self.has_cap and self.odds(60):
            stack = blinds[-1].unit * rng.choice([7, 11, 15, 25])
        game = rng.choice(["holdem", "omaha", "hilo"])
        tables = rng.choice([1, 1, 2, 2, 3, 4, 6])
        items = [f"game {game}", f"tables {tables}", f"seats {rng.randint(2, 10)}", f"stack {stack}",
                 f"buyin {rng.choice([0, 1, 100, 999, 1000000000])}", f"late {rng.randint(1, len(blinds))}",
                 *map(blinds_line, blinds), self.shares(), *self.caps()]
        if self.odds(25):
            rng.shuffle(items)
        for item in items:
            if self.odds(8):
                self.put(self.wrong_plan_line())
            if self.odds(3):
                self.put(self.note())
            if not self.odds(1):
                self.put(item)
        if self.odds(10):
            self.put(self.wrong_plan_line())
        self.put("go")

    def shares(self):
        """Few large shares or many small ones, which are rarely the whole pool."""
        count = self.rng.choice([1, 2, 3, 4, 5, 10, 20, 64])
        shares = sorted((self.rng.randint(1, min(1000, 2000 // count)) for _ in range(count)), reverse=True)
        while sum(shares) > 1000:
            shares.pop()
        return "shares " + " ".join(map(str, shares))

    def caps(self):
        """The line of a cap, if the bets are limited."""
        return [f"limit {self.rng.choice([1, 2, 3, 4, 4, 5, 9])}"] if self.has_cap else []

    def levels(self, unit):
        """Blinds level by level, each unit that of the level before times 1 to 6; where there are antes, most levels
        have one."""
        levels = []
        for _ in range(self.rng.choice([1, 1, 2, 3, 5])):
            small = unit * self.rng.choice([1, 1, 2, 5])
            big = small * self.rng.choice([1, 2, 2, 2, 3])
            ante = self.rng.choice([0, unit, small, big, 2 * big, 3 * big, 20 * unit]) if self.has_antes else 0
            levels.append(Blinds(small, big, unit, ante))
            unit *= self.rng.choice([1, 1, 2, 4, 5, 6])
        return levels

    def wrong_plan_line(self):
        rng = self.rng
        large = rng.choice([0, 65, 11, 41, 1000000000, 1000000001, 9007199254740991])
        if self.odds(15):
            return self.level_with_any_ante()
        return rng.choice([
            f"game {rng.choice(['omaha', 'hilo', 'holdem', 'stud'])}",
            f"tables {rng.choice([0, 2, 64, 65, large])}", f"seats {rng.choice([0, 1, 11, large])}",
            f"stack {rng.choice([0, 7, 1000000001, large])}", f"buyin {rng.choice([1000000001, large])}",
            f"late {rng.choice([0, 41, 5, large])}", "go", f"limit {rng.choice([0, 1, 4, 9, 10, large])}",
            "blinds " + " ".join(str(rng.choice(choices)) for choices in
                                 ([0, 100, 150, 300], [200, 250, 50, large], [0, 100, 1, 700],
                                  [0, 1, 50, 100, 200, large])[:rng.choice([3, 4])]),
            "shares " + " ".join(str(rng.choice([0, 1, 500, 501, 1000, 1001]))
                                 for _ in range(rng.choice([1, 2, 3, 64])))])

    def level_with_any_ante(self):
        """A level that is right but for its ante, if that is wrong."""
        unit = self.book.blinds[-1].unit if self.book.blinds else self.rng.choice([1, 5, 25])
        ante = self.rng.choice([1, unit + 1, unit // 2 + 1, 2 * unit, 1000000000, 1000000000 + unit])
        return f"blinds {unit} {2 * unit} {unit} {ante}"

    # -- notes, and what is wrong as a line --

    def note(self):
        """A star and any bytes behind it, mostly few, often as many as a note may have, now and then more; or a line as
        of a report."""
        length = self.pick((50, self.rng.randrange(20)), (15, self.rng.randrange(400)), (15, 399), (10, 400),
                           (2, self.rng.randint(401, 900)), (8, None))
        if length is None:
            return self.rng.choice(self.book.report())
        return "*" + "".join(self.rng.choices(NO_LINE_FEED, k=length))

    def mangled(self):
        """A line of no grammar, or close to it."""
        rng, line = self.rng, self.an_event()
        return rng.choice([
            "", " ", " *", " * a note", "stop *", "stop ", " stop", "go go", "stop\r", "Stop", "begin 1", "act 1 ann",
            "act 1 ann fold fold", "act 1 ann bet", "act 1 ann raise 0400", "enter floor 1 1", "enter Floor 1 1",
            "enter 1ann 1 1", "enter abcdefghijklmnop 1 1", "enter abcdefghijklmnopq 1 1", "enter ann 01 1",
            "reenter ann 1", "reenter floor 1 1", "reenter ann 1 1 1", "re-enter ann 1 1", "limit", "limit 04",
            "limit 4 4", "blinds 1 2", "blinds 1 2 1 0", "blinds 1 2 1 01", "blinds 1 2 1 1 1",
            "settle 9007199254740991", "settle 9007199254740992", "shares", "shares" + " 1" * 65, "hands out",
            "break 1 1.1,1.1 ann", "break 1 65.1 ann", "break 1 1.11 ann", "break 1 1.0 ann",
            "stop" + " " * 396, "é", "\xff", "begin 1 " + text_of(SORTED_DECK)[:-1] + "x",
            line + " ", line.replace(" ", "  ", 1), line.upper(), line[:-1], line + "0"])

    # -- what is done in a tournament --

    def a_table(self):
        tables = list(self.book.tables) or [1]
        beyond = [0, len(tables) + 1, 65, 9007199254740991]
        return self.rng.choice(tables if not self.odds(4) else beyond)

    def a_player(self):
        entered = self.book.entries or PLAYERS
        return self.rng.choice(entered) if not self.odds(5) else self.rng.choice(PLAYERS + ["nobody"])

    def a_deck(self):
        return "".join(self.rng.sample(CARDS, 52))

    def a_row(self):
        cards = self.rng.sample(CARDS, 52)
        if self.odds(5):
            cards[self.rng.randrange(52)] = self.rng.choice(CARDS)
        return "".join(cards)

    def a_place(self):
        """A table and a seat there: mostly an empty seat at a table with few players."""
        book, rng = self.book, self.rng
        table = self.a_table()
        counts = book.counts_to_enter()
        if counts and not self.odds(10):
            table = min(counts, key=lambda each: (counts[each], rng.random()))
        seat = rng.randint(1, book.plan.get("seats", 6))
        if book.level and not self.odds(8):
            seat = rng.choice([each for each in range(1, book.plan["seats"] + 1) if (table, each) not in book.seats]
                              or [seat])
        if self.odds(3):
            seat = rng.choice([0, 11, 9007199254740991])
        return f"{table} {seat}"

    def enter(self):
        """Mostly somebody new."""
        self.entered += 1
        new = next((player for player in PLAYERS if player not in self.book.entries), f"p{self.entered}")
        return f"enter {new if not self.odds(7) else self.a_player()} {self.a_place()}"

    def how_often_back(self):
        """How often a re-entry is tried: more where somebody may come back."""
        return self.returns if self.book.busts and not self.book.is_over() else 1

    def reenter(self):
        """Mostly somebody who is out."""
        out = [player for player, _, _ in self.book.busts]
        return f"reenter {self.rng.choice(out) if out and not self.odds(10) else self.a_player()} {self.a_place()}"

    def begin(self):
        return f"begin {self.a_table()} {self.a_row()}"

    def hand_at(self, table):
        return self.book.tables[table].hand if table in self.book.tables else None

    def act(self):
        """Mostly an act of the player who is due at a table that plays."""
        playing = sorted(self.book.playing_tables())
        table = self.rng.choice(playing) if playing and not self.odds(3) else self.a_table()
        hand = self.hand_at(table)
        due = hand.due() if hand else None
        if due is None or self.odds(8):
            dealt = sorted(self.book.tables[table].dealt.values()) if hand else []
            others = [player for player in self.book.entries if player not in dealt]
            player = self.rng.choice(self.pick((5, dealt), (3, others), (1, [])) or [self.a_player()])
            return f"act {table} {player} {self.any_act(hand, due)}"
        return f"act {table} {hand.names[due]} {self.any_act(hand, due)}"

    def any_act(self, hand, seat):
        kind = self.pick((30, "check"), (34, "call"), (9, "fold"), (4, "allin"), (9, "bet"), (14, "raise"))
        if self.is_wild:
            kind = self.pick((20, "check"), (45, "call"), (5, "fold"), (22, "allin"), (4, "bet"), (4, "raise"))
        if hand and hand.cap and self.odds(50):
            kind = self.pick((5, "call"), (2, "allin"), (5, "raise"))
        if hand and seat and self.odds(65):
            kind = self.fitting(kind, hand, seat)
        return f"{kind} {self.amount(hand, seat)}" if kind in ("bet", "raise") else kind

    def fitting(self, kind, hand, seat):
        """The like of an act that the player may do; short all-ins, and raises over them, come often."""
        most = hand.put[seat] + hand.behind(seat)
        if hand.level < most < hand.level + hand.full_raise and self.odds(40):
            return "allin"
        if hand.level > hand.put[seat] and hand.may_not_reopen(seat) and self.odds(40):
            return self.rng.choice(["raise", "raise", "allin"])
        if kind in ("check", "call"):
            return "call" if hand.put[seat] < hand.level else "check"
        if kind in ("bet", "raise"):
            return "bet" if hand.level == 0 else "raise"
        return kind

    def amount(self, hand, seat):
        """An amount at a bound, a unit beside it, or anywhere."""
        if hand is None or seat is None:
            return self.rng.choice([0, 100, 200, 400, 1000])
        least, most, unit = hand.level + hand.full_raise, hand.put[seat] + hand.behind(seat), hand.unit
        if hand.cap and self.odds(50):
            return least
        pot = hand.bound(seat)
        other = self.rng.choice(sorted(hand.live))
        short_of_all = max(least, hand.put[other] + hand.behind(other) - self.rng.randint(1, 4) * unit)
        near = self.rng.choice([least, least, least, short_of_all, short_of_all, most, hand.level, pot or least,
                                pot or most, hand.full_raise, self.rng.randrange(most + 1) // unit * unit])
        beside = self.pick((60, 0), (10, unit), (10, -unit), (6, 1), (4, -1), (6, unit // 2), (4, 2 * unit))
        return max(0, near + beside)

    def settle(self):
        over = [table for table in sorted(self.book.playing_tables()) if self.hand_at(table).is_over()]
        return f"settle {self.rng.choice(over) if over and not self.odds(4) else self.a_table()}"

    def is_uneven(self):
        """Whether two open tables differ by two players or more."""
        counts = self.book.open_counts().values()
        return bool(counts) and max(counts) - min(counts) > 1

    def balance(self):
        """Mostly from a fullest table that plays no hand to one with the fewest players."""
        counts, rng = self.book.open_counts(), self.rng
        if not counts or self.odds(12):
            return f"balance {self.a_table()} {self.a_table()}"
        fullest = [table for table in counts if counts[table] == max(counts.values())]
        resting = [table for table in fullest if not self.book.is_playing(table)]
        fewest = [table for table in counts if counts[table] == min(counts.values())]
        others = list(counts)
        source = rng.choice(self.pick((80, resting or fullest), (12, others), (8, fullest)))
        return f"balance {source} {rng.choice(self.pick((85, fewest), (15, others)))}"

    def break_table(self):
        """Mostly the table with the highest number, by its seats to fill and its players, each in any order."""
        book, rng = self.book, self.rng
        table = max(book.open_tables(), default=1) if not self.odds(8) else self.a_table()
        has_list = book.is_open(table) and len(book.open_tables()) > 1
        places, names = self.right_draw(table) if has_list else ([], [])
        if not places:
            places, names = [(rng.randint(1, 4), rng.randint(1, 10))], names or [self.a_player()]
        if self.odds(25):
            places, names = self.wrong_draw(places, names)
        return break_line(table, places, names)

    def right_draw(self, table):
        """The seats to fill, none where there is no room, and the players of a table, each in any order."""
        places, names = self.book.fill_list(table) or [], list(self.book.players_at(table).values())
        self.rng.shuffle(places)
        self.rng.shuffle(names)
        return places, names

    def wrong_draw(self, places, names):
        """One of the two lists with a member too few, too many, twice, or of elsewhere."""
        book, rng = self.book, self.rng
        anywhere = (rng.randint(1, len(book.tables) or 1), rng.randint(1, book.plan.get("seats", 6)))
        members, stranger = (places, anywhere) if self.odds(50) else (names, self.a_player())
        if self.odds(20) and members is names:
            stranger = "nobody"
        change = rng.choice(["fewer", "more", "twice", "again", "other"])
        if change == "fewer" and len(members) > 1:
            members.pop()
        elif change == "more":
            members.append(stranger)
        elif change == "twice":
            members.append(members[0])
        elif change == "again":
            members[0] = members[-1]
        else:
            members[0] = stranger
        return places, names

    def race(self):
        racing = [table for table in self.book.tables if self.book.tables[table].pending]
        return f"race {self.rng.choice(racing) if racing and not self.odds(10) else self.a_table()} {self.a_row()}"

    def natural(self):
        """Now and then a note, and else an event."""
        return self.note() if self.odds(5) else self.an_event()

    def an_event(self):
        """What is done next, by how the tournament stands: most of it is lawful."""
        book, rng = self.book, self.rng
        playing = sorted(book.playing_tables())
        ended = [table for table in playing if self.hand_at(table).is_over()]
        few = len(book.seats) < min(len(book.tables) * book.plan.get("seats", 6), 2 + rng.randrange(12))
        several = 1 if len(book.tables) > 1 else 0.1
        word = self.pick(
            (30 if few else 3, self.enter), (self.how_often_back(), self.reenter),
            (14 if len(playing) < len(book.tables) and not few else 2, self.begin),
            (60 if len(playing) > len(ended) else 3, self.act), (40 if ended else 1.5, self.settle),
            (4 if playing else 0.5, lambda: f"time {rng.choice(playing or [self.a_table()])}"),
            ((12 if self.is_uneven() else 2) * several, self.balance), (4 * several, self.break_table),
            (1, lambda: "level"), (8 if book.has_race() else 0.7, self.race), (0.7, lambda: "hands on"),
            (2.5 if book.hand_for_hand else 0.7, lambda: "hands off"),
            (6 if book.hand_for_hand else 0.7, lambda: "round"),
            (0.2, lambda: "stop"), (0.5, self.wrong_plan_line))
        return word()

    def make(self):
        special = self.pick((1, crowd), (0.1, crowd_at_one_table), (6, hall), (92.9, None))
        if special:
            special(self)
            return self.text()
        if self.odds(3):
            for _ in range(self.rng.randint(1, 12)):
                self.put(self.rng.choice([self.mangled(), self.note(), self.wrong_plan_line(), self.enter(),
                                          self.begin(), "stop"]))
        self.plan()
        after_end = self.rng.randint(0, 9)
        for _ in range(self.rng.choice([10, 60, 120, 400, 800])):
            self.put(self.mangled() if self.odds(4) else self.natural())
            after_end -= self.book.stopped or self.book.level == 0 or self.book.is_over()
            if after_end < 0:
                break
        return self.text() + (b"" if self.odds(5) else b"\n")
