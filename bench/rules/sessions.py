"""Scripts of sessions over links in memory: what each client says, who is served at which desk, and in which order turns
are made; and what has to come of one."""
from dataclasses import dataclass, field

from rules.lines import LONGEST_LINE, act_of, name, number, one_of
from rules.plan_file import served_of_file
from rules.served import Served, Worker, answer

FLOOR = "floor"
# A turn takes at most so many bytes from its link.
MOST_TAKEN = 512
IDLE, END = object(), object()

PLAYER_LINES = {"watch": [number]}
FLOOR_LINES = {
    "watch": [number], "enter": [name, number, number], "reenter": [name, number, number], "time": [number], "balance": [number, number],
    "break": [number], "level": [], "race": [number], "hands": [one_of("on", "off")], "round": [], "stop": [],
    "next": [],
}


# In no script is a client served for so many turns.
MOST_TURNS = 100_000


class LinkFault(Exception):
    """A call of a link that fails."""


class Endless(Exception):
    """A client who is served for ever."""


@dataclass
class Client:
    """What a client says: `("give", bytes)`, `("wait", turns, front)` and `("finish",)`; for how many bytes there is room,
    and the numbers of the calls that fail, from 1."""

    says: list = field(default_factory=list)
    room: int = 1 << 60
    failing: tuple = ()


class Link:
    """Plays what a client says, and keeps what is put."""

    def __init__(self, client):
        self.client, self.written, self.calls = client, b"", 0
        self.at = self.given = self.waited = 0
        self.ended = False

    def count(self):
        self.calls += 1
        if self.calls in self.client.failing:
            raise LinkFault

    def is_over(self, say):
        """Whether nothing is left of what is said: a wait is over by its turns, or by a whole line that begins so."""
        if say[0] == "give":
            return self.given == len(say[1])
        return say[0] == "wait" and (self.waited >= say[1] or self.has_line(say[2]))

    def has_line(self, front):
        return any(line.startswith(front) for line in self.written.split(b"\n")[:-1])

    def next_say(self):
        says = self.client.says
        while self.at < len(says) and self.is_over(says[self.at]):
            self.at, self.given, self.waited = self.at + 1, 0, 0
        return says[self.at] if self.at < len(says) else None

    def take(self):
        """Bytes, or that none are there, also where nothing more is said; or the end, which is for good."""
        self.count()
        say = self.next_say()
        if self.ended or (say and say[0] == "finish"):
            self.ended = True
            return END
        if say is None:
            return IDLE
        if say[0] == "wait":
            self.waited += 1
            return IDLE
        piece = say[1][self.given:self.given + MOST_TAKEN]
        self.given += len(piece)
        return piece

    def put(self, data):
        """Puts all bytes or, where it fails, none."""
        self.count()
        if len(self.written) + len(data) > self.client.room:
            raise LinkFault
        self.written += data


def request_of(line, grammar):
    """The words of a line that is in a grammar, or None."""
    if len(line) > LONGEST_LINE:
        return None
    try:
        word, *rest = line.decode("ascii").split(" ")
        if word == "act" and grammar is PLAYER_LINES:
            return word, (number(rest[0]), act_of(rest[1:]))
        readers = grammar.get(word)
        if readers is None or len(readers) != len(rest):
            return None
        return word, tuple(reader(each) for reader, each in zip(readers, rest))
    except (ValueError, IndexError):
        return None


class Session:
    """The session of a client at a desk, which is the list of the acts that were asked for there and accepted."""

    def __init__(self, hall, desk, link):
        self.hall, self.desk, self.link = hall, desk, link
        self.held, self.ended = b"", False
        self.who, self.floor_told, self.told = None, 0, {}

    def turn(self):
        """Handles a line that is held, or takes once from the link; says what it came to."""
        line, feed, rest = self.held.partition(b"\n")
        if feed:
            self.held = rest
            return self.handle(line)
        if self.ended:
            return "Ended"
        try:
            taken = self.link.take()
        except LinkFault:
            return "LinkRead"
        if taken is IDLE:
            return self.idle()
        if taken is END:
            self.ended, self.held = True, b""
            return self.handle(line) if line else "Ended"
        self.held += taken
        return "Took"

    def put(self, lines, step):
        """Puts lines, if there are any."""
        try:
            if lines:
                self.link.put("".join(each + "\n" for each in lines).encode())
        except LinkFault:
            return "LinkWrite"
        return step

    def handle(self, line):
        """A line is done first, then the news are told, and then it is replied. Who speaks and what is watched from then
        on does not count for its own news."""
        who, watched = self.who, None
        if line == b"quit":
            reply = "ok"
        elif who is None:
            who = self.hall.who_says(line)
            reply = "ok" if who else "who"
        else:
            reply, watched = self.answer(line)
        news = self.news()
        self.who = who
        if watched:
            self.told.setdefault(watched, 0)
        return self.put(news + [f"= {reply}"], "Quit" if line == b"quit" else "Replied")

    def idle(self):
        return self.put(self.news(), "Closed" if self.hall.served.book.stopped else "Idled")

    def answer(self, line):
        """The reply to a line of somebody who is known, and the table that is watched from then on, if one is."""
        served = self.hall.served
        request = request_of(line, FLOOR_LINES if self.who == FLOOR else PLAYER_LINES)
        if request is None:
            return answer(1), None
        word, args = request
        if word == "watch":
            return (answer(None), args[0]) if served.book.is_table(args[0]) else (answer(8), None)
        if word == "act":
            return self.act(*args), None
        if word == "time":
            return self.call_time(*args), None
        return served.order(word, args), None

    def act(self, table, act):
        refused = self.hall.served.play(table, self.who, act)
        if refused is None:
            self.desk.append(f"{self.who} {table} {self.who} {act.kind} {act.amount} said")
        return answer(refused)

    def call_time(self, table):
        refused, due, kind = self.hall.served.call_time(table)
        if refused is None:
            self.desk.append(f"floor {table} {due} {kind} 0 time")
        return answer(refused)

    def news(self):
        """What the client was not told yet: the floor's lines, and those of each table that he watches."""
        if self.who is None:
            return []
        served = self.hall.served
        lines = served.floor_lines[self.floor_told:]
        self.floor_told = len(served.floor_lines)
        for table in sorted(self.told):
            new = served.table_lines[table][self.told[table]:]
            lines += [told.line for told in new if told.own in (None, self.who)]
            self.told[table] = len(served.table_lines[table])
        return lines


@dataclass
class Script:
    """A plan file, a seed, how many desks are used, the clients, and what is done: `("come", client, desk)`,
    `("turn", desk, times)`, `("serve", client, desk)` and `("work", table)`."""

    plan: bytes
    seed: bytes
    desks: int
    clients: list = field(default_factory=list)
    deeds: list = field(default_factory=list)


class Hall:
    """Plays a script, step by step."""

    def __init__(self, script):
        lines, self.floor_word, self.words = served_of_file(script.plan)
        self.script, self.served = script, Served(lines, script.seed)
        self.workers = {table: Worker(self.served, table) for table in self.served.book.tables}
        self.desks = [[] for _ in range(script.desks)]
        self.sessions, self.guests = [None] * script.desks, [None] * script.desks
        self.links, self.ends, self.lines = {}, {}, []

    def who_says(self, line):
        """Who says hello by a line: the floor or a player, where the word is theirs."""
        words = line.split(b" ")
        if len(words) != 3 or words[0] != b"hello":
            return None
        speaker, word = (each.decode("latin-1") for each in words[1:])
        right = self.floor_word if speaker == FLOOR else self.words.get(speaker)
        return speaker if word == right else None

    def do(self, deed):
        word, *args = deed
        self.lines.append(getattr(self, word)(*args))

    def link_of(self, client):
        return self.links.setdefault(client, Link(self.script.clients[client]))

    def come(self, client, desk):
        if self.sessions[desk]:
            return "busy"
        self.sessions[desk], self.guests[desk] = Session(self, self.desks[desk], self.link_of(client)), client
        return "come"

    def one_turn(self, desk):
        """A turn of the session at a desk, which is free again where the session is over."""
        step = self.sessions[desk].turn()
        if step not in ("Took", "Replied", "Idled"):
            self.ends[self.guests[desk]] = step
            self.sessions[desk] = None
        return step

    def turn(self, desk, times):
        steps = []
        while self.sessions[desk] and len(steps) < times:
            steps.append(self.one_turn(desk))
        return " ".join(["turn", *steps])

    def serve(self, client, desk):
        if self.sessions[desk]:
            return "busy"
        self.come(client, desk)
        for _ in range(MOST_TURNS):
            step = self.one_turn(desk)
            if self.sessions[desk] is None:
                return f"serve {step}"
        raise Endless

    def work(self, table):
        worker = self.workers[table]
        return f"work {'gone' if worker.gone else worker.turn()}"

    def told(self):
        """What came of the script: a line for each step, what was asked for at each desk, and how the session of each
        client stands, with what was put on its link behind that."""
        lines = self.lines + [f"asked {desk} {each}" for desk, acts in enumerate(self.desks) for each in acts]
        text = "".join(line + "\n" for line in lines).encode()
        for client in range(len(self.script.clients)):
            put = self.link_of(client).written
            text += f"{self.ends.get(client, 'open')} {len(put)}\n".encode() + put
        return text + b"end\n"


def played(script):
    """Plays a script to its end."""
    hall = Hall(script)
    for deed in script.deeds:
        hall.do(deed)
    return hall


def say_word(say):
    """How a script's text has what a client says."""
    if say[0] == "give":
        return f"g{say[1].hex()}"
    return f"w{say[1]}.{say[2].hex()}" if say[0] == "wait" else "f"


def script_text(script):
    """A script as the program reads it."""
    lines = [f"open {script.seed.hex()} {script.plan.hex()}"]
    for client in script.clients:
        failing = ",".join(map(str, client.failing)) or "-"
        lines.append(" ".join(["client", str(client.room), failing, *map(say_word, client.says)]))
    lines += [" ".join(map(str, deed)) for deed in script.deeds]
    return "".join(line + "\n" for line in [*lines, "end"])
