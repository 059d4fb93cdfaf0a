"""Refuses each allocation of a served hand in turn, until a run makes no more: each run ends with status 0 and a text
that replays, or with 5 and a front of one. Who is answered `= memory` asks again, and whose session ends comes again.
Where a thread cannot be started its work waits until that of another is done, so that a door may stay shut; such a run is
ended.

python3 -m serving.refused_memory"""
import collections
import itertools
import os
import pathlib
import subprocess
import tempfile
import time

import refusing
from serving.hostile import Client
from serving.server import TOP, check_replay, plan

PORT = 25000
# the program itself, since a script that begins it would want memory too
SERVER = os.environ.get("SERVER", str(TOP / "crates/floor_desk/out/floor_desk"))
# how many seconds a client waits for a line
PATIENCE = 5


class Guest:
    """A client who says hello again where the session ended, and asks again where memory ran out."""

    def __init__(self, port, hello, seen):
        self.port, self.hello, self.seen = port, hello, seen
        self.come()

    def come(self):
        while True:
            self.client = Client(self.port, 0.1)
            self.client.socket.settimeout(PATIENCE)
            reply = self.client.ask(self.hello)
            self.count(reply)
            if reply == "gone":
                self.seen["sessions that ended"] += 1
            elif reply.startswith("ok"):
                return

    def count(self, reply):
        if reply == "memory":
            self.seen["= memory"] += 1
        if reply.endswith(" behind"):
            self.seen["behind"] += 1

    def ask(self, line, wanted="ok"):
        while True:
            reply = self.client.ask(line)
            self.count(reply)
            if reply in (wanted, wanted + " behind"):
                return
            assert reply in ("memory", "gone"), (line, reply)
            if reply == "gone":
                self.come()

    def wait_for(self, front):
        for line in self.client.lines:
            if line.startswith(front):
                return


def serve(preload, number, folder, seen):
    """Serves a hand with one allocation refused. Gives the status, and how many allocations were made."""
    environment = refusing.begin(preload, number)
    with open(folder / "text", "wb") as out:
        server = subprocess.Popen([SERVER, "serve", str(PORT), "2"], stdin=subprocess.PIPE, stdout=out,
                                  stderr=subprocess.PIPE, env=environment, cwd=TOP)
    try:
        server.stdin.write(plan(1, 2))
        server.stdin.close()
        floor = ann = None
        while server.poll() is None and not (floor and ann):
            try:
                floor = floor or Guest(PORT, "hello floor f", seen)
                ann = ann or Guest(PORT + 1, "hello p1 w1", seen)
            except ConnectionError:
                time.sleep(0.01)
        if server.poll() is None:
            floor.ask("enter p1 1 1")
            floor.ask("enter p2 1 2")
            ann.ask("watch 1")
            ann.wait_for(b"1: hand 1 ")
            ann.ask("act 1 fold")
            floor.wait_for(b"# settle 1")
            floor.ask("stop")
    except TimeoutError:
        server.kill()
        server.wait()
        return None, refusing.made(preload)
    except OSError:
        pass
    said = server.stderr.read()
    status = server.wait(60)
    assert (status, said) in ((0, b""), (5, b"out of memory\n")), (number, status, said)
    return status, refusing.made(preload)


def main():
    folder = pathlib.Path(tempfile.mkdtemp())
    preload = refusing.build(folder)
    seen = collections.Counter()
    for number in itertools.count(1):
        status, made = serve(preload, number, folder, seen)
        if made < number:
            break
        text = (folder / "text").read_bytes()
        seen["doors that stay shut" if status is None else f"status {status}"] += 1
        if status == 0:
            check_replay(text)
        elif status == 5:
            assert b"\n* end\n" not in text
    print(f"{number - 1} allocations of a served hand, each refused in turn: {dict(seen)}")


if __name__ == "__main__":
    main()
