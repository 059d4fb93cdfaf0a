"""A client of the server that waits for each reply."""
import socket
import time


def connect(port, seconds=30):
    """Comes to a door, as soon as it opens."""
    until = time.time() + seconds
    while True:
        try:
            client = socket.create_connection(("127.0.0.1", port), 60)
            client.setsockopt(socket.IPPROTO_TCP, socket.TCP_NODELAY, 1)
            return client
        except OSError:
            if time.time() > until:
                raise
            time.sleep(0.05)


class Client:
    """A client that waits for each reply."""

    def __init__(self, port, seconds=30):
        self.socket = connect(port, seconds)
        self.lines = self.socket.makefile("rb")

    def reply(self):
        """Gives the next reply, and passes over news."""
        for line in self.lines:
            if line.startswith(b"= "):
                return line[2:-1].decode()
        return "gone"

    def ask(self, line):
        self.socket.sendall(line.encode() + b"\n")
        return self.reply()

    def quit(self):
        assert self.ask("quit") == "ok"
        self.socket.close()
