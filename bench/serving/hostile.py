"""Clients that do not behave, while two players play: each has to be answered by the rules or let go, and none may hold
up the players.

python3 -m serving.hostile"""
import random
import socket
import struct
import threading
import time

from serving.client import Client, connect
from serving.link import spread
from serving.server import Server, check_replay, plan

PORT = 24000
DESKS = 128
# the first doors are the floor's and those of the two who play
FREE = range(PORT + 3, PORT + DESKS)


class Players(threading.Thread):
    """Two players who fold to each other at table 1, hand after hand."""

    def __init__(self):
        super().__init__(daemon=True)
        self.clients = [Client(PORT + 1 + each) for each in range(2)]
        for each, client in enumerate(self.clients):
            assert client.ask(f"hello p{each + 1} w{each + 1}") == "ok"
        self.delays, self.going = [], True

    def run(self):
        while self.going:
            for client in self.clients:
                sent = time.perf_counter()
                reply = client.ask("act 1 fold")
                self.delays.append(time.perf_counter() - sent)
                assert reply in ("ok", "no 14 NotPlaying", "no 21 NotTurn", "no 22 HandOver"), reply
                time.sleep(0.002)

    def told(self):
        """Says how long the replies took since the last time."""
        delays, self.delays = self.delays, []
        return f"the players' replies {spread(delays)}"


def silence(server):
    clients = [connect(port) for port in FREE]
    time.sleep(5)
    for client in clients:
        client.close()
    return f"{len(clients)} connections say nothing for five seconds"


def never_reads(server):
    """Asks again and again and takes no reply, until the server lets it go."""
    client = connect(FREE[0])
    client.setsockopt(socket.SOL_SOCKET, socket.SO_RCVBUF, 4096)
    client.settimeout(1)
    began, lines = time.time(), 0
    try:
        while time.time() - began < 120:
            try:
                lines += client.send(b"watch 1\n" * 1000) // 8
            except TimeoutError:
                pass
    except OSError:
        pass
    took = time.time() - began
    assert took < 120, "it was never let go"
    client.close()
    Client(FREE[0]).quit()
    return f"one who asks {lines} lines and reads no reply is let go after {took:.0f} seconds"


def long_line(server, size=1 << 30):
    """Sends a line of a gigabyte."""
    before, client = server.memory("VmRSS"), Client(FREE[1])
    piece = bytes(1 << 20)
    began = time.time()
    for _ in range(size // len(piece)):
        client.socket.sendall(piece)
    assert client.ask("") == "who"
    took = time.time() - began
    assert client.ask("hello p3 w3") == "ok"
    client.quit()
    return f"a line of {size} bytes is taken in {took:.1f} s, with {server.memory('VmRSS') - before} kB more of memory"


def slow_line(server):
    """Sends a byte a second."""
    client = Client(FREE[2])
    for byte in b"hello p3 w3\n":
        client.socket.sendall(bytes([byte]))
        time.sleep(1)
    assert client.reply() == "ok"
    client.quit()
    return "a hello of a byte a second is right"


def broken_letters(server):
    """Sends half a letter of UTF-8, and bytes at random."""
    client = Client(FREE[3])
    client.socket.sendall(b"hello p\xc3 w3\n\xff\xfe\n")
    assert [client.reply(), client.reply()] == ["who", "who"]
    assert client.ask("hello p3 w3") == "ok"
    client.socket.sendall(b"act 1 \xc3\n")
    assert client.reply() == "no 1 Syntax"
    garbage = random.Random(7).randbytes(1 << 20).replace(b"quit", b"Quit")
    count = garbage.count(b"\n") + 1
    sender = threading.Thread(target=client.socket.sendall, args=(garbage + b"\n",))
    sender.start()
    replies = {client.reply() for _ in range(count)}
    sender.join()
    assert replies == {"no 1 Syntax"}, replies
    client.quit()
    return f"half letters and {count} lines at random are all answered"


def guesses(server, count=10_000):
    """Tries one wrong word after another."""
    client = Client(FREE[4])
    began = time.time()
    sender = threading.Thread(target=client.socket.sendall,
                              args=(b"".join(b"hello floor g%d\n" % each for each in range(count)),))
    sender.start()
    assert {client.reply() for _ in range(count)} == {"who"}
    sender.join()
    took = time.time() - began
    assert client.ask("stop") == "who"
    client.quit()
    return f"{count} wrong words are refused in {took:.1f} s"


def comers(server, count=1000):
    """Comes and goes at once, half of them by a reset."""
    began = time.time()
    for each in range(count):
        client = connect(FREE[5 + each % 100])
        if each % 2:
            client.setsockopt(socket.SOL_SOCKET, socket.SO_LINGER, struct.pack("ii", 1, 0))
        else:
            client.sendall(b"hello p3")
        client.close()
    took = time.time() - began
    for port in (FREE[5], FREE[104]):
        Client(port).quit()
    return f"{count} who come and go take {took:.1f} s, and their doors open again"


def cut_floor(server):
    """The floor's connection is cut in the midst of an order, and behind one."""
    floor = connect(PORT)
    floor.sendall(b"hello floor f\nbre")
    time.sleep(0.2)
    floor.setsockopt(socket.SOL_SOCKET, socket.SO_LINGER, struct.pack("ii", 1, 0))
    floor.close()
    floor = Client(PORT)
    assert floor.ask("hello floor f") == "ok"
    # table 2 has a player still, so it was not broken; two sit at table 1, so it cannot be
    assert floor.ask("break 2") == "no 37 NoRoom"
    floor.socket.sendall(b"level\n")
    floor.socket.close()
    time.sleep(0.5)
    return "the floor's connection is cut in the midst of a break, and behind a level"


def again(do, pause):
    """Has somebody do a thing again and again, until their connection breaks."""
    def go_on():
        try:
            while do() != b"":
                time.sleep(pause)
        except OSError:
            pass

    threading.Thread(target=go_on, daemon=True).start()


def strangers(count=100):
    """Lets strangers stay who say a byte each 10 ms, ask without end, read nothing, read a byte a second, or are silent."""
    clients = [connect(port) for port in FREE[:count]]
    for each, client in enumerate(clients):
        match each % 5:
            case 0:
                again(lambda client=client: client.send(b"x"), 0.01)
            case 1:
                again(lambda client=client: client.sendall(b"watch 1\n" * 100) or client.recv(1 << 16), 0.01)
            case 2:
                client.sendall(b"hello p3 w3\n" + b"watch 1\n" * 10_000)
            case 3:
                client.sendall(b"hello p3 w3\n" + b"watch 1\n" * 1000)
                again(lambda client=client: client.recv(1), 1)
    time.sleep(2)
    return clients


CASES = [silence, never_reads, long_line, slow_line, broken_letters, guesses, comers, cut_floor]


def main():
    server = Server(PORT, DESKS, plan(2, 2))
    floor = Client(PORT)
    assert floor.ask("hello floor f") == "ok"
    for line in ("enter p1 1 1", "enter p3 2 1", "enter p2 1 2"):
        assert floor.ask(line) == "ok", line
    floor.quit()
    players = Players()
    players.start()
    time.sleep(3)
    print(f"nobody else: {players.told()}", flush=True)
    for case in CASES:
        told = case(server)
        print(f"{told}: {players.told()}", flush=True)
    players.going = False
    players.join()
    stay = strangers()
    floor = Client(PORT)
    assert floor.ask("hello floor f") == "ok"
    stopped = time.time()
    assert floor.ask("stop") == "ok"
    floor.socket.close()
    text = server.end()
    took = time.time() - stopped
    assert took < 15, took
    print(f"among {len(stay)} strangers who stay the server ends {took:.2f} s after the stop")
    check_replay(text)
    assert b"\nlevel\n" in text and b"\nbreak " not in text
    print(f"the text has {text.count(b'act 1 p')} acts, and replays")


if __name__ == "__main__":
    main()
