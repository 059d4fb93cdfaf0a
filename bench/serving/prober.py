"""A plain prober: a player's second session, at a desk of its own, and an echo, asked in turn over blocking sockets.

Its line is always refused, since nobody may raise to 1."""
import socket
import time

from serving.echo import LINE


def connect(port):
    for _ in range(4000):
        try:
            link = socket.create_connection(("127.0.0.1", port))
            break
        except OSError:
            time.sleep(0.05)
    link.setsockopt(socket.IPPROTO_TCP, socket.TCP_NODELAY, 1)
    return link.makefile("rwb")


def ask(link, line):
    """Gives the seconds until the line's reply."""
    sent = time.perf_counter()
    link.write(line.encode() + b"\n")
    link.flush()
    for told in link:
        if told.startswith(b"= "):
            return time.perf_counter() - sent


def probe(pipe, port, echo_port):
    """Asks until it is told that it is enough, and gives the delays of the server and of the echo."""
    link, echo = connect(port), connect(echo_port)
    ask(link, "hello p1 w1")
    ask(link, "watch 1")
    pipe.send("here")
    pipe.recv()
    delays, echoed = [], []
    while not pipe.poll():
        time.sleep(0.01)
        delays.append(ask(link, "act 1 raise 1"))
        time.sleep(0.01)
        echoed.append(ask(echo, LINE))
    ask(link, "quit")
    pipe.send((delays, echoed))
