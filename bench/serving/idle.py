"""What idle sessions and doors cost: tables whose hands lie while nobody acts, and clients who say nothing at some of the
doors. The floor's session is one of them.

python3 -m serving.idle TABLES DESKS SESSIONS SECONDS"""
import asyncio
import sys

from serving.link import Link
from serving.server import Server, plan

PORT = 22000


async def main(tables, desks, sessions, seconds):
    server = Server(PORT, desks, plan(tables, 2))
    floor = await Link().open(PORT)
    assert await floor.ask("hello floor f") == "ok"
    for seat in (1, 2):
        for table in range(1, tables + 1):
            assert await floor.ask(f"enter p{2 * table + seat - 2} {table} {seat}") == "ok"
    players = []
    for each in range(1, sessions):
        player = await Link().open(PORT + each)
        assert await player.ask(f"hello p{each} w{each}") == "ok"
        player.say(f"watch {(each + 1) // 2}")
        players.append(player)
    # the server waits the longer for a client, the longer that one is silent
    await asyncio.sleep(15)
    before = server.seconds()
    await asyncio.sleep(seconds)
    used = server.seconds() - before
    assert await floor.ask("stop") == "ok"
    for client in [floor] + players:
        await client.gone()
    server.end()
    print(f"{tables} tables, {desks} desks and {sessions} sessions, all idle: {used:.2f} s of {seconds} s, "
          f"{100 * used / seconds:.1f} in a hundred of one processor")


if __name__ == "__main__":
    asyncio.run(main(*map(int, sys.argv[1:4]), float(sys.argv[4])))
