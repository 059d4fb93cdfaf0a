"""Clients without end, who come to doors at random, play, say anything at all, and are cut off; more of them than there
are desks. In the end each door and each table still answers, the floor stops the tournament, and the text replays.

Each process has a session of the floor that watches some tables and so knows who is due there, and other clients, each
in a thread of its own.

python3 -m serving.fuzz SECONDS [CLIENTS [TABLES [SEED]]]"""
import random
import socket
import struct
import sys
import threading
import time
from collections import Counter

from serving.beside import beside
from serving.client import Client
from serving.server import LEVELS, Server, check_replay, check_view, plan
from serving.table import Table

PORT = 28000
DESKS = 128
SEATS = 10
PROCESSES = 4
# how many seconds a client waits for a reply; another may have to leave its door first
PATIENCE = 90
ORDERS = ["next", "next", "hands off", "round"]
GARBAGE = [b"", b" ", b"*", b"* a note", b"go", b"quit ", b"QUIT", b"hello", b"hello p1 w1", b"act 1", b"act 1 fold ",
           b"act  1 fold", b"act 01 fold", b"act 1 bet", b"act 1 bet 0400", b"act 1 raise -1", b"act 1 p1 fold", b"watch",
           b"watch 01", b"settle 1", b"begin 1", b"stop 1", b"x" * 401, b"x" * 5000, b"\xff\xfe",
           "act 1 ch\u00e9ck".encode(), b"act 1 fold\r"]
# what may be refused of an act, a called time, and of an order
OF_ACTS = {8, 14, 20, 21, 22, *range(24, 33)}
OF_ORDERS = {5, 6, 8, 9, 10, 11, 12, 13, 14, 17, 22, *range(33, 38), 39, 40, 41, 42, 43, 44}


class Watcher(threading.Thread):
    """A session of the floor that watches some tables, until it is closed."""

    def __init__(self, port, tables):
        super().__init__(daemon=True)
        self.tables = {table: Table() for table in tables}
        self.client, self.level, self.begun = Client(port), 1, {}
        self.client.socket.settimeout(None)
        for line in ["hello floor f", *(f"watch {table}" for table in tables)]:
            assert self.client.ask(line) == "ok", line

    def run(self):
        try:
            for line in self.client.lines:
                self.told(line.decode().rstrip("\n").split(" "))
        except OSError:
            pass

    def told(self, words):
        if words[0] == "#":
            self.level += words[1] == "level"
            if words[1] == "begin":
                self.begun[int(words[3])] = self.level
        elif words[0] != "=":
            table = self.tables[int(words[0][:-1])]
            table.told(words[1:])
            if words[1] == "post":
                table.blinds(LEVELS[self.begun[table.serial] - 1][1])

    def due(self, rng):
        """A table, who is due there, and an act of theirs."""
        playing = [(number, table, table.due) for number, table in list(self.tables.items()) if table.due]
        if not playing:
            return None
        number, table, name = rng.choice(playing)
        try:
            return number, name, table.choice(name, rng.randrange(100))
        except (AttributeError, KeyError, TypeError):
            # the table has gone on meanwhile
            return number, name, "fold"


class Visitor(threading.Thread):
    """A client who comes again and again."""

    def __init__(self, number, watcher, tables, until):
        super().__init__(daemon=True)
        self.rng, self.watcher, self.tables, self.until = random.Random(number), watcher, tables, until
        self.replies, self.counts, self.kept, self.faults = Counter(), Counter(), [], []

    def run(self):
        while time.time() < self.until:
            visit = self.rng.choices([self.play, self.talk, self.strange, self.cut, self.flood, self.order],
                                     [60, 16, 8, 8, 3, 5])[0]
            try:
                self.visit(visit)
            except (AssertionError, ValueError) as fault:
                self.faults.append(f"{visit.__name__}: {fault!r}")

    def visit(self, kind):
        """Comes to a door, and leaves it. Who is let go, or waits for too long, is counted."""
        self.counts[kind.__name__] += 1
        door = PORT + self.rng.randrange(PROCESSES + 1, DESKS)
        try:
            self.socket = socket.create_connection(("127.0.0.1", door), PATIENCE)
        except OSError:
            self.counts["nobody let them in"] += 1
            return
        self.rest, self.lines, self.name = b"", [], None
        try:
            kind()
        except TimeoutError:
            self.counts["waited for too long"] += 1
        except OSError:
            self.counts["let go"] += 1
        finally:
            self.socket.close()
        if self.name and len(self.kept) < 3 and self.rng.random() < 0.02:
            self.kept.append((self.name, self.lines))

    # -- what is said and replied --

    def reply(self):
        """The next reply; news are kept."""
        while True:
            line, feed, rest = self.rest.partition(b"\n")
            if not feed:
                data = self.socket.recv(1 << 16)
                if not data:
                    raise ConnectionResetError
                self.rest += data
                continue
            self.rest = rest
            if line.startswith(b"= "):
                self.replies[line[2:].decode()] += 1
                return line[2:].decode()
            self.lines.append(line)

    def ask(self, line, *wanted, refused=()):
        """Says a line, in pieces now and then, and sees that it is replied so, or refused by one of these numbers."""
        data = (line if isinstance(line, bytes) else line.encode()) + b"\n"
        if self.rng.random() < 0.05:
            cut = self.rng.randrange(len(data))
            self.socket.sendall(data[:cut])
            time.sleep(self.rng.random() / 10)
            data = data[cut:]
        self.socket.sendall(data)
        self.counts["lines"] += 1
        reply = self.reply()
        number = int(reply.split()[1]) if reply.startswith("no ") else None
        assert reply in wanted or number in refused, (line, reply)
        return reply

    def hello(self, name):
        self.ask(f"hello {name} {'f' if name == 'floor' else 'w' + name[1:]}", "ok")
        # who looks at all tables is told what somebody is told who plays nowhere
        self.name = "nobody" if name == "floor" else name

    def garbage(self, wanted):
        data = self.rng.choice(GARBAGE)
        if self.rng.random() < 0.3:
            data = self.rng.randbytes(self.rng.randrange(600)).replace(b"\n", b"?")
        self.ask(data, wanted)

    def leave(self):
        """Quits, or is gone, perhaps by a reset."""
        way = self.rng.randrange(3)
        if way == 0:
            self.ask("quit", "ok")
        elif way == 1:
            self.socket.setsockopt(socket.SOL_SOCKET, socket.SO_LINGER, struct.pack("ii", 1, 0))

    def any_table(self):
        return self.rng.choice([0, self.tables + 1, 9007199254740991]) if self.rng.random() < 0.05 else (
            self.rng.randint(1, self.tables))

    def any_player(self):
        return f"p{self.rng.randint(1, self.tables * SEATS)}"

    def any_act(self):
        return self.rng.choice(["fold", "check", "call", "allin", f"bet {self.rng.randrange(2000)}",
                                f"raise {self.rng.randrange(4000)}", "raise 50", "bet 0", "raise 9007199254740991"])

    # -- visits --

    def play(self):
        """Whoever is due acts, perhaps by something unlawful before."""
        due = self.watcher.due(self.rng)
        if not due:
            time.sleep(0.05)
            return
        table, name, act = due
        self.hello(name)
        if self.rng.random() < 0.3:
            self.ask(f"watch {table}", "ok")
        if self.rng.random() < 0.3:
            self.ask(f"act {table} {self.any_act()}", "ok", refused=OF_ACTS)
        self.ask(f"act {table} {act}", "ok", refused=OF_ACTS)
        self.leave()

    def talk(self):
        """Somebody who is known says anything."""
        self.hello(self.any_player())
        for _ in range(self.rng.randint(1, 40)):
            way = self.rng.randrange(4)
            if way == 0:
                self.garbage("no 1 Syntax")
            elif way == 1:
                self.ask(f"watch {self.any_table()}", "ok", refused={8})
            else:
                self.ask(f"act {self.any_table()} {self.any_act()}", "ok", refused=OF_ACTS)
        self.leave()

    def strange(self):
        """Somebody who has no word says anything, and tries words."""
        for _ in range(self.rng.randint(1, 40)):
            way = self.rng.randrange(3)
            if way == 0:
                name, word = self.rng.choice(["floor", "p1", "nobody"]), self.rng.choice(["", "x", "w", "F"])
                self.ask(f"hello {name} {word}", "who")
            elif way == 1:
                self.ask(self.rng.choice(["stop", "level", "next", "watch 1", "act 1 fold", "time 1"]), "who")
            elif (data := self.rng.choice(GARBAGE)) != b"hello p1 w1":
                self.ask(data, "who")
        self.leave()

    def cut(self):
        """Is cut off in the midst of a line, or closes its side alone behind a last line without a line feed."""
        name = self.any_player()
        self.hello(name)
        line = f"act {self.any_table()} {self.any_act()}".encode()
        self.socket.sendall(line[:self.rng.randint(0, len(line))])
        if self.rng.random() < 0.5:
            self.socket.shutdown(socket.SHUT_WR)
            try:
                while True:
                    self.reply()
            except ConnectionResetError:
                return
        self.leave_by_reset()

    def leave_by_reset(self):
        self.socket.setsockopt(socket.SOL_SOCKET, socket.SO_LINGER, struct.pack("ii", 1, 0))

    def flood(self):
        """Says many lines and reads nothing."""
        self.hello(self.any_player())
        self.socket.sendall(b"watch 1\nact 1 check\n\xff\n" * self.rng.randint(1, 700))
        time.sleep(self.rng.random())
        self.leave_by_reset()

    def order(self):
        """The floor orders anything but the stop."""
        self.hello("floor")
        for _ in range(self.rng.randint(1, 20)):
            table, other = self.any_table(), self.any_table()
            line = self.rng.choice([*ORDERS, f"enter {self.any_player()} {table} {self.rng.randint(0, 11)}",
                                    f"time {table}", f"time {other}", f"balance {table} {other}", f"break {table}",
                                    f"race {table}"])
            if self.rng.random() < 0.01:
                line = "hands on"
            self.ask(line, "ok", "none", refused=OF_ORDERS)
            if self.rng.random() < 0.1:
                self.garbage("no 1 Syntax")
        # tables go on by hands
        self.ask("hands off", "ok", refused=OF_ORDERS)
        self.leave()


def visit_all(pipe, numbers, door, watched, tables, seconds):
    """Has visitors come for so many seconds, and gives what they have to tell."""
    watcher = Watcher(door, watched)
    watcher.start()
    pipe.send("here")
    pipe.recv()
    visitors = [Visitor(number, watcher, tables, time.time() + seconds) for number in numbers]
    for visitor in visitors:
        visitor.start()
    for visitor in visitors:
        visitor.join()
    pipe.send([(visitor.replies, visitor.counts, visitor.kept, visitor.faults) for visitor in visitors])
    pipe.recv()


def enter_all(server, tables):
    """The floor enters a player for each seat, at one table after another."""
    floor = Client(PORT)
    assert floor.ask("hello floor f") == "ok"
    for index in range(tables * SEATS):
        line = f"enter p{index + 1} {index % tables + 1} {index // tables + 1}"
        assert floor.ask(line) == "ok", line
    floor.quit()
    server.all_entered()


def ask_each_door():
    """Each door but those of the watchers answers a client. Gives how long the slowest took."""
    slowest = 0
    for port in [PORT, *range(PORT + PROCESSES + 1, PORT + DESKS)]:
        began = time.time()
        client = Client(port)
        assert client.ask("watch 1") == "who", port
        client.quit()
        slowest = max(slowest, time.time() - began)
    return slowest


def main(seconds, clients, tables, seed):
    server = Server(PORT, DESKS, plan(tables, SEATS))
    each = clients // PROCESSES - 1
    processes = [beside(visit_all, range(seed * 1000 + number * each, seed * 1000 + (number + 1) * each),
                        PORT + 1 + number, range(number + 1, tables + 1, PROCESSES), tables, seconds)
                 for number in range(PROCESSES)]
    for process in processes:
        assert process.recv() == "here"
    enter_all(server, tables)
    for process in processes:
        process.send("come")
    told = [of_one for process in processes for of_one in process.recv()]
    server.ends()
    slowest = ask_each_door()
    floor = Client(PORT)
    assert floor.ask("hello floor f") == "ok"
    for table in range(1, tables + 1):
        reply = floor.ask(f"time {table}")
        assert reply in ("ok", "no 14 NotPlaying", "no 22 HandOver"), (table, reply)
    assert floor.ask("stop") == "ok"
    floor.socket.close()
    text = server.end()
    check_replay(text)
    replies, counts, kept, faults = (sum(part, type(part[0])()) for part in zip(*told))
    for name, lines in kept:
        check_view(text, name, lines)
    print(f"{clients} clients at {DESKS} desks: {server.played(text)}; {server.cost(text)}")
    print(f"{counts['lines']} lines that waited for their reply, {replies.total()} replies read, {len(kept)} visits "
          f"compared with `view`; each of {DESKS - PROCESSES} doors answers in the end, the slowest after {slowest:.2f} s")
    print(", ".join(f"{name} {number}" for name, number in counts.most_common()))
    for reply in sorted(replies, key=lambda reply: int(reply.split()[1]) if reply.startswith("no ") else 0):
        print(f"{replies[reply]:9} {reply}")
    print(f"replies that should not come: {len(faults)}", *faults[:10], sep="\n")
    return int(bool(faults))


if __name__ == "__main__":
    words = [int(word) for word in sys.argv[1:]]
    sys.exit(main(*words, *[600, 200, 64, 1][len(words):]))
