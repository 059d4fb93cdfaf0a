"""The players of a table, in a process of their own, who act when their lines say that they are due."""
import asyncio
import dataclasses
import random
import time

from serving.echo import LINE
from serving.link import Link
from serving.server import LEVELS
from serving.table import Table


@dataclasses.dataclass
class Figures:
    """What a player has to tell in the end."""
    name: str
    lines: list
    # how long each reply took
    delays: list
    # since when each table is watched, when the player's acts were sent there, and when the acts of each player were seen,
    # by table and name
    since: dict
    sent: dict
    seen: dict
    refused: list


class Player:
    """A player, who watches the tables at which he may sit, and acts where he is due."""

    def __init__(self, number, echo):
        self.name, self.word, self.draw, self.echo = f"p{number}", f"w{number}", random.Random(number), echo
        self.link, self.tables, self.acted = Link(self.told), {}, {}
        self.echo_first = False
        # the level, and that of each hand
        self.level, self.begun = 1, {}
        self.figures = Figures(self.name, self.link.lines, self.link.delays, {}, {}, {}, [])

    async def come(self, port, table):
        await self.link.open(port)
        assert await self.link.ask(f"hello {self.name} {self.word}") == "ok"
        assert await self.watch(table) == "ok"
        # a hello waits until the door is looked at
        self.link.delays.clear()

    def watch(self, table):
        self.tables[table], self.figures.since[table], self.figures.sent[table] = Table(), time.perf_counter(), []
        return self.link.say(f"watch {table}")

    def told(self, line):
        head, _, rest = line.partition(" ")
        if head == "#":
            self.told_of_floor(rest.split(" "))
            return
        number = int(head.rstrip(":"))
        table, words = self.tables[number], rest.split(" ")
        table.told(words)
        if words[0] == "post":
            table.blinds(LEVELS[self.begun.get(table.serial, self.level) - 1][1])
        if len(words) > 1 and words[1] in ("fold", "check", "call", "bet", "raise") and words[0] != self.name:
            self.figures.seen.setdefault((number, words[0]), []).append(self.link.came)
        self.link.loop.call_soon(self.may_act, number)

    def told_of_floor(self, words):
        if words[0] == "level":
            self.level += 1
        if words[0] == "begin":
            self.begun[int(words[2])] = self.level
        if words[0] == "balance" and int(words[1]) in self.tables:
            self.may_sit(int(words[2]))
        if words[0] == "break" and self.name in words[3].split(","):
            place = words[2].split(",")[words[3].split(",").index(self.name)]
            self.may_sit(int(place.split(".")[0]))

    def may_sit(self, table):
        if table not in self.tables:
            self.watch(table)

    def may_act(self, number):
        table = self.tables[number]
        if table.due == self.name and self.acted.get(number) != table.told_so_far:
            self.acted[number] = table.told_so_far
            self.act(number, table.choice(self.name, self.draw.randrange(100)))

    def act(self, number, act):
        """Acts, and asks the echo in the same moment, before the act and behind it by turns."""
        self.echo_first = not self.echo_first
        if self.echo_first:
            self.echo.say(LINE)
        sent = time.perf_counter()
        self.figures.sent[number].append(sent)
        self.link.say(f"act {number} {act}").add_done_callback(lambda reply: self.replied(number, act, sent, reply.result()))
        if not self.echo_first:
            self.echo.say(LINE)

    def replied(self, number, act, sent, reply):
        if reply != "ok":
            self.figures.sent[number].remove(sent)
        if reply.startswith("no") and reply not in ("no 14 NotPlaying", "no 21 NotTurn"):
            self.figures.refused.append((self.name, number, act, reply))
            if act != "fold":
                self.act(number, "fold")


async def sit(port, numbers, table, echo_port, pipe):
    echo = await Link().open(echo_port)
    players = [Player(number, echo) for number in numbers]
    for player, number in zip(players, numbers):
        await player.come(port + number, table)
    pipe.send("here")
    # nobody acts before all have entered: else the last tables would break while they fill
    pipe.recv()
    await asyncio.gather(*(player.link.gone(None) for player in players))
    pipe.send(([player.figures for player in players], echo.delays))


def play(pipe, *share):
    """Plays at doors behind a port, and asks an echo with each act."""
    asyncio.run(sit(*share, pipe))


def news(players):
    """Gives how long it took until each player was told of another's act, but for acts before they watched."""
    sent = {(table, player.name): times for player in players for table, times in player.sent.items()}
    return [came - went for player in players for (table, name), times in player.seen.items()
            for went, came in zip(sent[table, name], times) if player.since[table] < went]
