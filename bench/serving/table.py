"""What a client knows of a table by its lines alone: who is in the hand, who is due, and what he faces."""


class Table:
    """One table, by its lines. Seats are numbered from 1."""

    def __init__(self):
        self.names, self.due = {}, None
        # how many lines were told that are told to everybody
        self.told_so_far = 0

    def begin(self, button, big):
        self.button, self.big, self.names = button, big, {}
        self.behind, self.put, self.live, self.acted = {}, {}, set(), set()
        self.level, self.full, self.after, self.posted = 0, 0, big, 0
        self.due = None

    def seat(self, seat, name, stack):
        self.names[seat] = name
        self.behind[seat] = stack
        self.put[seat] = 0
        self.live.add(seat)

    def seat_of(self, name):
        return next((seat for seat, other in self.names.items() if other == name), None)

    def pay(self, name, chips):
        seat = self.seat_of(name)
        self.put[seat] += chips
        self.behind[seat] -= chips
        return seat

    def find_due(self):
        """Finds who is due: who is live and not all-in, and has not acted or faces a bet."""
        self.due = None
        if len(self.live) < 2:
            return
        able = [seat for seat in self.live if self.behind[seat] > 0]
        if len(able) == 1 and self.put[able[0]] >= max(self.put[seat] for seat in self.live):
            return
        seats = sorted(self.names)
        later = [seat for seat in seats if seat > self.after] + [seat for seat in seats if seat <= self.after]
        for seat in later:
            if seat in able and (seat not in self.acted or self.put[seat] < self.level):
                self.due = self.names[seat]
                return

    def street(self):
        self.put = dict.fromkeys(self.put, 0)
        self.acted, self.level, self.full, self.after = set(), 0, self.blind, self.button
        self.find_due()

    def told(self, words):
        """Takes the words of a line behind `T: `."""
        kind = words[0]
        self.told_so_far += kind != "hole"
        if kind == "hand":
            self.serial = int(words[1])
            self.begin(int(words[2]), int(words[4]))
        elif kind == "seat":
            self.seat(int(words[1]), words[2], int(words[3]))
        elif kind == "post":
            self.pay(words[1], int(words[2]))
            self.find_due()
        elif kind in ("flop", "turn", "river"):
            self.street()
        elif kind in ("hole", "show"):
            pass
        elif kind == "win":
            self.due = None
        else:
            self.act(words)

    def act(self, words):
        name, act = words[0], words[1]
        seat = self.seat_of(name)
        if act == "fold":
            self.live.discard(seat)
        elif act == "call":
            self.pay(name, int(words[2]))
        elif act in ("bet", "raise"):
            level = int(words[2])
            self.pay(name, level - self.put[seat])
            self.full = max(self.full, level - self.level)
            self.level = level
        self.acted.add(seat)
        self.after = seat
        self.find_due()

    def blinds(self, big):
        """Says what the big blind is: before the flop it is the bet level, also where it was posted short."""
        self.blind = big
        self.level = max(self.level, big)
        self.full = big
        self.find_due()

    def choice(self, name, draw):
        """An act of whoever is due, by a number from 0 to 99."""
        seat = self.seat_of(name)
        owes = self.level - self.put[seat]
        if draw < 2:
            return "allin"
        if draw < 20 and self.level and self.level + self.full < self.put[seat] + self.behind[seat] and seat not in self.acted:
            return f"raise {self.level + self.full}"
        if draw < 20 and not self.level and self.blind <= self.behind[seat]:
            return f"bet {self.blind}"
        if owes <= 0:
            return "check"
        # a great bet is mostly not paid
        return "call" if draw < (30 if 4 * owes > self.behind[seat] else 75) else "fold"
