"""Players who share the desks: whoever is due comes, says hello, is told what happened at their table up to where they
are due, acts and leaves. The tables and the desks are dealt out to a few processes.

python3 -m serving.crowd TABLES SEATS DOORS MINUTES"""
import asyncio
import random
import sys
import time

from serving import echo, floor
from serving.beside import beside
from serving.link import Link, spread
from serving.server import LEVELS, Server, check_replay, check_view, plan
from serving.table import Table

PORT = 23000
PROCESSES = 4


def take(table, words):
    """Takes the words of a table's line. The big blind is that of the first level."""
    table.told(words)
    if words[0] == "post":
        table.blinds(LEVELS[0][1])


class Visitor(Link):
    """A player who comes to a door. They are told so many lines of a table that are told to everybody, and what these tell
    of the last hand says that they are due."""

    def __init__(self, number, name, lines):
        super().__init__(self.hear)
        self.head, self.name, self.lacks, self.hand = f"{number}: ", name, lines, []

    async def open(self, port):
        await super().open(port)
        self.due = self.loop.create_future()
        return self

    def hear(self, line):
        if not line.startswith(self.head) or self.due.done():
            return
        words = line[len(self.head):].split(" ")
        if words[0] == "hand":
            self.hand = []
        self.hand.append(words)
        self.lacks -= words[0] != "hole"
        if not self.lacks:
            self.look()

    def look(self):
        table = Table()
        for words in self.hand:
            take(table, words)
        assert table.due == self.name, (self.head, self.name)
        self.due.set_result((table, self.came))


class Crowd:
    """The players of some tables, by their names. A session of the floor watches for them, and so knows who is due."""

    def __init__(self, tables, doors):
        self.tables, self.watcher = {table: Table() for table in tables}, Link(self.told)
        self.free, self.draw = asyncio.Queue(), random.Random(tables[0])
        self.busy, self.tasks, self.open = set(), set(), False
        self.visits, self.refused, self.sent = [], [], {}
        # from the hello to its reply, from the hello to where they are told that they are due, from the act to its reply,
        # and from the act to the watcher's news of it
        self.hellos, self.tellings, self.delays, self.news = [], [], [], []
        for door in doors:
            self.free.put_nowait(door)

    def told(self, line):
        head, _, rest = line.partition(" ")
        if head == "#":
            return
        number = int(head.rstrip(":"))
        take(self.tables[number], rest.split(" "))
        if number in self.sent:
            self.news.append(self.watcher.came - self.sent.pop(number))
        self.watcher.loop.call_soon(self.look, number)

    def look(self, number):
        """Sends whoever is due at a table to a door, unless somebody is there for it already."""
        due = self.tables[number].due
        if due and number not in self.busy and self.open:
            self.busy.add(number)
            task = asyncio.create_task(self.visit(number, due))
            self.tasks.add(task)
            task.add_done_callback(self.tasks.discard)

    async def visit(self, number, name):
        port = await self.free.get()
        told_so_far = self.tables[number].told_so_far
        link = await Visitor(number, name, told_so_far).open(port)
        began = time.perf_counter()
        replies = [link.say(f"hello {name} w{name[1:]}"), link.say(f"watch {number}")]
        table, came = await asyncio.wait_for(link.due, 60)
        act = table.choice(name, self.draw.randrange(100))
        self.sent[number] = time.perf_counter()
        self.echo.say(echo.LINE)
        replies += [link.say(f"act {number} {act}"), link.say("quit")]
        await link.gone(120)
        self.free.put_nowait(port)
        said = [reply.result() for reply in replies]
        assert said[0] == said[1] == said[3] == "ok", said
        if said[2] != "ok":
            self.refused.append((name, number, act, said[2]))
        self.hellos.append(link.delays[0])
        self.tellings.append(came - began)
        self.delays.append(link.delays[2])
        if len(self.visits) < 20 or self.draw.random() < 0.01:
            self.visits.append((name, link.lines))
        # the watcher is told of the act a moment later
        while said[2] == "ok" and self.tables[number].told_so_far == told_so_far:
            await asyncio.sleep(0.002)
        self.busy.discard(number)
        self.look(number)

    async def run(self, pipe, port, minutes):
        self.echo = await Link().open(PORT - 1)
        await self.watcher.open(port)
        assert await self.watcher.ask("hello floor f") == "ok"
        for table in self.tables:
            assert await self.watcher.ask(f"watch {table}") == "ok"
        pipe.send("here")
        # nobody acts before all have entered: else the last tables would break while they fill
        pipe.recv()
        self.open = True
        await asyncio.sleep(60 * minutes)
        self.open = False
        await asyncio.gather(*self.tasks)
        pipe.send((self.hellos, self.tellings, self.delays, self.echo.delays, self.news, self.refused, self.visits))


def play(pipe, tables, doors, minutes):
    """Plays at some tables for so many minutes. The first door is the watcher's."""
    asyncio.run(Crowd(tables, doors[1:]).run(pipe, doors[0], minutes))


class Floor(floor.Floor):
    """Waits until the crowds are through."""

    def __init__(self, tables, seats, crowds):
        super().__init__(tables, seats)
        self.crowds = crowds

    async def play(self):
        return [await asyncio.to_thread(crowd.recv) for crowd in self.crowds]


def main(tables, seats, doors, minutes):
    server = Server(PORT, doors + 1, plan(tables, seats))
    beside(echo.serve, PORT - 1)
    crowds = [beside(play, range(each, tables + 1, PROCESSES), range(PORT + each, PORT + doors + 1, PROCESSES), minutes)
              for each in range(1, PROCESSES + 1)]
    told = asyncio.run(Floor(tables, seats, crowds).run(PORT, server, crowds))
    text = server.end()
    check_replay(text)
    hellos, tellings, delays, echoed, news, refused, visits = (sum(parts, []) for parts in zip(*told))
    for name, lines in visits:
        check_view(text, name, lines)
    print(f"{tables} tables of {seats} at {doors - PROCESSES} doors: {server.played(text)}")
    print(f"from the hello to its reply: {spread(hellos)}")
    print(f"from the hello to where they are told that they are due: {spread(tellings)}")
    print(f"from an act to its reply: {spread(delays)}")
    print(f"the echo that was asked with it: {spread(echoed)}")
    print(f"from an act to another's news of it: {spread(news)}")
    print(f"{server.cost(text)}, refused {len(refused)}, {len(visits)} visits compared")
    for each in refused[:5]:
        print("refused:", *each)


if __name__ == "__main__":
    main(*map(int, sys.argv[1:4]), float(sys.argv[4]))
