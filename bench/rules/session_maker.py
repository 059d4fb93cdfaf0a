"""Makes scripts of sessions from a seed: the floor, players and strangers come and go at a few desks, say lawful and
unlawful lines, whole, in pieces or cut off, and are cut off themselves."""
from rules.lines import GREATEST_NUMBER
from rules.maker import PLAYERS, Maker
from rules.sessions import FLOOR, Client, Hall, Script, played

NO_LINE_FEED = bytes(byte for byte in range(256) if byte != 10)
# Lengths about the longest line and about what one take brings.
LENGTHS = [399, 400, 401, 402, 511, 512, 513, 900, 1025, 2000]
# What a client waits for now and then; the last never comes.
FRONTS = [b"= ok", b"= no", b"# begin", b"# settle", b"# break", b"1: hand", b"1: ", b"2: win", b"# go\n", b"!"]


class SessionMaker(Maker):
    """Makes one script, and plays it on the model as it goes. What a session takes was said before, so that the script
    is played again in the same way."""

    def __init__(self, seed):
        super().__init__(seed)
        rng, self.is_crowd = self.rng, self.odds(0.15)
        plan = self.crowd_file() if self.is_crowd else self.plan_file()
        self.script = Script(plan, rng.randbytes(32), rng.choice([1, 2, 2, 3, 3, 4]))
        self.hall = Hall(self.script)
        self.book = self.hall.served.book
        self.live = {}

    def plan_file(self):
        """A plan file whose stacks are small, with the words of some players; some have antes, and some a cap."""
        rng = self.rng
        blinds = self.levels(rng.choice([1, 5, 25, 100]))
        late = rng.randint(1, len(blinds))
        stack = blinds[late - 1].unit * rng.choice([1, 2, 3, 5, 8, 20, 20, 50, 100])
        words = "".join(f'{player} = "{player[0]}{rng.randrange(10)}"\n' for player in PLAYERS if not self.odds(15))
        self.floor_word = rng.choice(["f", "tower7", "x" * 32])
        levels, shares = [list(level.numbers()) for level in blinds], ", ".join(self.shares().split()[1:])
        cap = "".join(line.replace(" ", " = ") + "\n" for line in self.caps())
        game, tables = rng.choice(["holdem", "holdem", "omaha", "hilo"]), rng.choice([1, 1, 2, 2, 3, 4])
        return (f'game = "{game}"\ntables = {tables}\nseats = {rng.choice([2, 2, 3, 4, 6, 9, 10])}\nstack = {stack}\n'
                f"buyin = {rng.choice([0, 10, 100])}\nlate = {late}\nblinds = {levels}\n"
                f'shares = [{shares}]\n{cap}floor_word = "{self.floor_word}"\n[words]\n{words}').encode()

    def crowd_file(self):
        """The plan file of as many seats as players may enter, whose blinds are all that they have."""
        self.floor_word = "f"
        return (b'game = "holdem"\ntables = 64\nseats = 10\nstack = 5\nbuyin = 1\nlate = 1\nblinds = [[5, 5, 5]]\n'
                b'shares = [1000]\nfloor_word = "f"\n[words]\nann = "a"\n')

    # -- what is done --

    def do(self, *deed):
        self.hall.do(deed)
        self.script.deeds.append(deed)

    def client_at(self, desk):
        return self.script.clients[self.hall.guests[desk]]

    def come(self, desk, fails=True):
        """Somebody comes to a desk; now and then a call of his link fails, or it has little room."""
        rng, client = self.rng, Client()
        if fails and self.odds(8):
            client.failing = tuple(sorted({rng.randint(1, 40) for _ in range(rng.choice([1, 1, 2]))}))
        if fails and self.odds(6):
            client.room = rng.choice([0, 1, 4, 20, 200, 500, 1000, 3000])
        self.script.clients.append(client)
        self.do("come", len(self.script.clients) - 1, desk)

    def turn(self, desk):
        """One turn at a desk. Where the client has nothing more to say his silence is said."""
        session = self.hall.sessions[desk]
        if b"\n" not in session.held and not session.ended and session.link.next_say() is None:
            self.client_at(desk).says.append(("wait", 1, b"!"))
        self.do("turn", desk, 1)

    def listen(self, desk):
        """Turns until all that was said is handled; now and then fewer."""
        while session := self.hall.sessions[desk]:
            if b"\n" not in session.held and (session.ended or session.link.next_say() is None):
                return
            if self.odds(2):
                return
            self.turn(desk)

    def give(self, desk, data):
        """A client gives bytes in pieces, now and then with a silence in between."""
        says, rng = self.client_at(desk).says, self.rng
        while data:
            size = len(data) if self.odds(75) else rng.randint(1, len(data))
            says.append(("give", data[:size]))
            data = data[size:]
            if self.odds(3):
                says.append(("give", b""))
            if self.odds(6):
                says.append(("wait", rng.randint(0, 3), rng.choice(FRONTS)))

    def say(self, desk, *lines):
        """A client says lines, and they are handled."""
        self.give(desk, b"".join(line + b"\n" for line in lines))
        self.listen(desk)

    def leave(self, desk):
        """A client quits, or is gone, perhaps in the midst of a line."""
        if self.odds(40):
            self.say(desk, b"quit")
            return
        if self.odds(50):
            line = self.line_of(desk)
            self.give(desk, line[:self.rng.randint(0, len(line))])
        self.client_at(desk).says.append(("finish",))
        self.listen(desk)

    # -- what is said --

    def garbage(self):
        rng = self.rng
        return rng.choice([
            b"", b" ", b"\r", b"*", b"* a note", b"quit ", b" quit", b"QUIT", b"quit\r", b"\xff\xfe", b"hello",
            b"hello ", "hällo".encode(), "act 1 ch\u00e9ck".encode(), b"hello floor", b"hello floor f f", b"hello  ann a1",
            b"act 1", b"act 1 ", b"act 1 fold ", b"act  1 fold", b"act 01 fold", b"act 1 bet", b"act 1 bet 0400",
            b"act 1 raise -1", b"act 1 fold 1", b"watch", b"watch 1 1", b"watch 01", b"time", b"next 1", b"stop 1",
            b"enter ann 1", b"enter floor 1 1", b"reenter ann 1", b"reenter floor 1 1", b"enter 1ann 1 1",
            b"break 1 1.1 ann", b"hands out", b"begin 1",
            b"settle 1", b"act 1 ann fold", b"go", b"level 2", b"race 1 " + b"2c" * 52,
            bytes(rng.choices(NO_LINE_FEED, k=rng.randrange(40))),
            bytes(rng.choices(NO_LINE_FEED, k=rng.choice(LENGTHS))), b"x" * rng.choice(LENGTHS),
            b"hello ann " + b"a" * rng.choice(LENGTHS)])

    def hello(self, speaker=None):
        """A hello, mostly a right one."""
        rng, hall = self.rng, self.hall
        speaker = speaker or self.pick((35, FLOOR), (60, rng.choice(list(hall.words) or [FLOOR])),
                                       (5, rng.choice(["nobody", "Floor", "ann2", *PLAYERS])))
        word = self.floor_word if speaker == FLOOR else hall.words.get(speaker, "a1")
        if self.odds(6):
            word = rng.choice(["", "no", word[:-1], word + "x", word.upper(), self.floor_word, *hall.words.values()])
        return f"hello {speaker} {word}".encode()

    def any_number(self):
        tables = list(self.book.tables)
        return self.rng.choice([0, len(tables) + 1, 65, GREATEST_NUMBER, GREATEST_NUMBER + 1]) if self.odds(5) else (
            self.rng.choice(tables))

    def hand_at(self, table):
        return self.hall.served.hands.get(table)

    def play(self, player):
        """An act of a player, mostly at a table where he is due."""
        hands = self.hall.served.hands
        due = [table for table, hand in hands.items() if hand and hand.due() and hand.names[hand.due()] == player]
        dealt = [table for table, hand in hands.items() if hand and player in hand.names.values()]
        table = self.rng.choice(due or dealt or [self.any_number()])
        if self.odds(6):
            table = self.any_number()
        hand = self.hand_at(table)
        seat = hand.seat_of(player) if hand else None
        return f"act {table} {self.any_act(hand, seat)}".encode()

    def order(self):
        """What the floor asks for: mostly what would be done now."""
        book, rng = self.book, self.rng
        room = len(book.seats) < min(len(book.tables) * book.plan["seats"], 12) and len(book.entries) < 8
        racing = [table for table in book.tables if book.tables[table].pending]
        here = {session.who for session in self.hall.sessions if session}
        late = self.players_due() - here
        idle = 12 if book.hand_for_hand else 1
        return self.pick(
            (40 if room else 4, self.enter), (2 * self.how_often_back(), self.reenter), (6, lambda: "next"),
            (25 if late else 2, self.time),
            (10 if self.is_uneven() else 2, self.balance), (3, lambda: f"break {self.any_number()}"),
            (3, lambda: "level"), (25 if racing else 1, lambda: f"race {self.one_of(racing)}"), (2, lambda: "hands on"), (idle, lambda: "hands off"), (idle, lambda: "round"), (0.4, lambda: "stop"),
        )().encode()

    def one_of(self, tables):
        """Mostly one of these tables."""
        return self.rng.choice(tables) if tables and not self.odds(12) else self.any_number()

    def time(self):
        return f"time {self.one_of(sorted(table for table, hand in self.hall.served.hands.items() if hand))}"

    def line_of(self, desk):
        """A line of whoever is at a desk: before a hello mostly that."""
        session = self.hall.sessions[desk]
        if session.who is None:
            return self.pick((85, self.hello()), (9, self.garbage()), (3, b"watch 1"), (3, self.order()))
        if self.odds(7):
            return self.pick((6, self.garbage()), (1, self.hello()), (1, self.order()), (1, self.play("ann")))
        if self.odds(8 if session.who == FLOOR or session.who in self.players_due() else 50):
            return f"watch {self.any_number()}".encode()
        return self.order() if session.who == FLOOR else self.play(session.who)

    def players_due(self):
        return {hand.names[hand.due()] for hand in self.hall.served.hands.values() if hand and hand.due()}

    # -- the script --

    def step(self):
        """The next step. Who is due speaks soon, if they are at a desk, and comes to one, if they are not."""
        rng, sessions = self.rng, self.hall.sessions
        free = [desk for desk, session in enumerate(sessions) if session is None]
        busy = [desk for desk, session in enumerate(sessions) if session]
        due = self.players_due()
        asked = [desk for desk in busy if sessions[desk].who in due]
        others = [desk for desk in busy if desk not in asked]
        here = {sessions[desk].who for desk in busy}
        awaited = any(player in self.hall.words and player not in here for player in due)
        self.pick((30 if free else 0, self.arrive),
                  ((25 if awaited and not free else 2) * bool(others), lambda: self.leave(rng.choice(others))),
                  (1 * bool(asked), lambda: self.leave(rng.choice(asked))),
                  (3 * len(busy), lambda: self.turn(rng.choice(busy))),
                  (8 * len(others), lambda: self.speak(rng.choice(others))),
                  (70 if asked else 0, lambda: self.speak(rng.choice(asked))),
                  (60 if self.to_work() else 8, self.work))()

    def to_work(self):
        """The tables at which a worker has something to do."""
        book, hands = self.book, self.hall.served.hands
        return [table for table in book.tables
                if (hands[table].is_over() if hands[table] else book.count(table) > 1) and not book.stopped]

    def work(self):
        tables = list(self.book.tables)
        self.do("work", self.rng.choice(self.to_work() or tables) if self.odds(85) else self.rng.choice(tables))

    def arrive(self):
        """Somebody comes to a desk that is free, mostly says hello and watches; now and then he stays alone."""
        desk = self.rng.choice([desk for desk, session in enumerate(self.hall.sessions) if session is None])
        before = len(self.script.deeds)
        self.come(desk)
        if self.odds(90):
            self.say(desk, self.hello(self.who_is_wanted()))
        if self.odds(50) and self.hall.sessions[desk]:
            self.say(desk, f"watch {self.any_number()}".encode())
        if self.odds(15):
            self.stay(desk)
            self.script.deeds[before:] = [("serve", len(self.script.clients) - 1, desk)]

    def who_is_wanted(self):
        """Somebody who is due and has a word, or the floor where few have entered."""
        due = sorted(player for player in self.players_due() if player in self.hall.words)
        if due and self.odds(75):
            return self.rng.choice(due)
        return FLOOR if len(self.book.entries) < 3 and self.odds(85) else None

    def stay(self, desk):
        """A client says some lines and leaves, with nobody else in between."""
        for _ in range(self.rng.randrange(6)):
            if self.hall.sessions[desk]:
                self.speak(desk)
        if self.hall.sessions[desk]:
            self.client_at(desk).says.append(("finish",))
        while self.hall.sessions[desk]:
            self.turn(desk)

    def speak(self, desk):
        """A client says a line, or a few at once."""
        self.say(desk, *(self.line_of(desk) for _ in range(self.pick((80, 1), (15, 2), (5, 5)))))

    def look_at_all(self):
        """The floor watches each table at last, and is told all that happened."""
        desk = self.rng.randrange(self.script.desks)
        if self.hall.sessions[desk]:
            self.client_at(desk).says.append(("finish",))
        while self.hall.sessions[desk]:
            self.turn(desk)
        self.script.clients.append(Client())
        self.do("come", len(self.script.clients) - 1, desk)
        lines = [f"hello floor {self.floor_word}", *(f"watch {table}" for table in self.book.tables), "next"]
        self.say(desk, *(line.encode() for line in lines))

    def crowd(self):
        """All seats are taken, one hand is played by called times, and who enters then finds the list full."""
        desk, seats = 0, [f"{index % 64 + 1} {index // 64 + 1}" for index in range(640)]
        self.come(desk, fails=False)
        self.say(desk, b"hello floor f")
        for at in range(0, 640, 40):
            self.say(desk, *(f"enter p{at + each} {seats[at + each]}".encode() for each in range(40)))
        self.do("work", 1)
        while self.hand_at(1) and not self.hand_at(1).is_over():
            self.say(desk, b"time 1")
        self.do("work", 1)
        self.say(desk, *(f"{word} 1 {seat}".encode() for seat in range(1, 11) for word in ("enter ann", "reenter p64")))
        self.say(desk, b"quit")

    def make(self):
        if self.is_crowd:
            self.crowd()
        for _ in range(self.rng.choice([5, 20, 60, 60, 150, 150])):
            self.step()
        if self.odds(60):
            desk = self.rng.randrange(self.script.desks)
            if session := self.hall.sessions[desk]:
                self.say(desk, b"stop" if session.who == FLOOR else self.line_of(desk))
        for _ in range(self.rng.choice([0, 5, 20])):
            self.step()
        self.look_at_all()
        self.take_room()
        return self.script

    def take_room(self):
        """Each link has just the room for what is put on it, but for those that had too little."""
        hall = played(self.script)
        assert hall.told() == self.hall.told() or any(deed[0] == "serve" for deed in self.script.deeds)
        for number, client in enumerate(self.script.clients):
            client.room = min(client.room, len(hall.link_of(number).written))
