"""Each player on a desk of their own: simulated players act when their lines say that they are due. The players of a table
are a process of their own, and the floor is another.

python3 -m serving.evening TABLES SEATS MINUTES"""
import asyncio
import sys
import time

from serving import echo, floor, players, prober
from serving.beside import beside
from serving.link import spread
from serving.server import LEVELS, Server, check_replay, check_view, plan

PORT = 21000


class Floor(floor.Floor):
    """Calls levels and races for some minutes, or until all but one are out."""

    def __init__(self, tables, seats, minutes, probe):
        super().__init__(tables, seats)
        self.minutes, self.probe = minutes, probe
        self.level, self.out = 1, 0

    def told(self, line):
        words = line.split(" ")
        if words[1] == "level":
            self.level += 1
        if words[1] == "stack" and words[-1] == "0":
            self.out += 1

    async def play(self):
        ended = time.time() + 60 * self.minutes
        while time.time() < ended and self.out < self.tables * self.seats - 1:
            await asyncio.sleep(min(20, 60 * self.minutes / 20))
            if self.level < len(LEVELS):
                unit = LEVELS[self.level - 1][2]
                if await self.link.ask("level") == "ok" and LEVELS[self.level - 1][2] > unit:
                    await self.race_all()
        # sessions close in a silence behind the stop, and the prober leaves none
        self.probe.send("enough")
        return await asyncio.to_thread(self.probe.recv)

    async def race_all(self):
        left = set(range(1, self.tables + 1))
        while left:
            for table in sorted(left):
                reply = await self.link.ask(f"race {table}")
                if reply != "no 13 Playing":
                    left.discard(table)
            await asyncio.sleep(0.01)


def main(tables, seats, minutes):
    count = tables * seats
    server = Server(PORT, count + 2, plan(tables, seats))
    beside(echo.serve, PORT - 1)
    rooms = [beside(players.play, PORT, range(table, count + 1, tables), table, PORT - 1) for table in range(1, tables + 1)]
    probe = beside(prober.probe, PORT + count + 1, PORT - 1)
    caller = Floor(tables, seats, minutes, probe)
    probed, probed_echo = asyncio.run(caller.run(PORT, server, rooms + [probe]))
    text = server.end()
    check_replay(text)
    told, echoed = [], []
    for room in rooms:
        of_room, of_echo = room.recv()
        told, echoed = told + of_room, echoed + of_echo
        for player in of_room:
            check_view(text, player.name, player.lines)
            player.lines.clear()
    refused = [each for player in told for each in player.refused]
    print(f"{tables} tables of {seats}: {server.played(text)}, {caller.out} out")
    print(f"line to reply: {spread([delay for player in told for delay in player.delays])}")
    print(f"an echo asked with each act: {spread(echoed)}")
    print(f"line to another's news: {spread(players.news(told))}")
    print(f"a prober's line to reply: {spread(probed)}")
    print(f"an echo asked by the prober: {spread(probed_echo)}")
    print(f"{server.cost(text)}, refused {len(refused)}")
    for each in refused[:5]:
        print("refused:", *each)


if __name__ == "__main__":
    main(int(sys.argv[1]), int(sys.argv[2]), float(sys.argv[3]))
