"""Out and err of the server that fail: an out that is full after each number of bytes of a small evening, a pipe whose
reader is gone, an out that is closed, each with an err that is read, full, or closed; and an err that is full after each
number of bytes of its line.

python3 -m serving.failing_streams"""
import os
import resource
import signal
import subprocess
import tempfile

from serving.client import Client
from serving.server import TOP, plan

PORT = 26000
# so that no run waits for a port of the one before
PORTS = 2000
# the program itself, since a script that begins it would write too
SERVER = os.environ.get("SERVER", str(TOP / "crates/floor_desk/out/floor_desk")).split()
# no hand begins, so that each evening has the same text
LINES = ["hello floor f", "enter p1 1 1", "enter p2 2 1", "level", "stop"]


def limits(size, closed):
    """Has the server write no more than so many bytes to any file, with these streams closed, and the system's way with
    a pipe whose reader is gone."""
    def limit():
        signal.signal(signal.SIGPIPE, signal.SIG_DFL)
        signal.signal(signal.SIGXFSZ, signal.SIG_IGN)
        if size is not None:
            resource.setrlimit(resource.RLIMIT_FSIZE, (size, size))
        for stream in closed:
            os.close(stream)
    return limit


class Evenings:
    """Small evenings, each at a port of its own."""

    def __init__(self):
        self.port = PORT

    def serve(self, out, err=subprocess.PIPE, size=None, closed=()):
        """Serves one, and gives its status and what it wrote on err."""
        self.port = PORT + (self.port - PORT + 1) % PORTS
        with subprocess.Popen([*SERVER, "serve", str(self.port), "1"], stdin=subprocess.PIPE, stdout=out, stderr=err,
                              preexec_fn=limits(size, closed)) as server:
            server.stdin.write(plan(2, 2))
            server.stdin.close()
            floor = Client(self.port)
            for line in LINES:
                assert floor.ask(line) == "ok", line
            floor.socket.close()
            said = server.stderr.read() if server.stderr else b""
        return server.returncode, said

    def serve_to_file(self, size=None, err=subprocess.PIPE, closed=()):
        """The same with a file as out, which comes third."""
        with tempfile.TemporaryFile() as out:
            ended = self.serve(out, err, size, closed)
            out.seek(0)
            return *ended, out.read()

    def serve_to_nobody(self, err=subprocess.PIPE, closed=()):
        """The same with a pipe as out whose reader is gone."""
        read, write = os.pipe()
        os.close(read)
        try:
            return self.serve(write, err, None, closed)
        finally:
            os.close(write)


def full(evenings):
    """Out is full after each number of bytes, with an err that is read, and at some of them one that takes nothing."""
    status, said, whole = evenings.serve_to_file()
    assert (status, said) == (0, b""), (status, said)
    for size in range(len(whole)):
        ended = evenings.serve_to_file(size)
        assert ended == (4, b"write fault\n", whole[:size]), (size, ended)
    assert evenings.serve_to_file(len(whole)) == (0, b"", whole)
    with open("/dev/full", "wb") as device:
        for size in range(0, len(whole), 50):
            assert evenings.serve_to_file(size, device) == (4, b"", whole[:size]), size
            assert evenings.serve_to_file(size, None, (2,)) == (4, b"", whole[:size]), size
        assert evenings.serve_to_file(None, device) == (0, b"", whole)
    assert evenings.serve_to_file(None, None, (2,)) == (0, b"", whole)
    return (f"out is full after each of {len(whole)} bytes: status 4, its line on err, and the front is there; "
            "so it is with an err that is full or closed, and with these alone the status is 0")


def nobody_reads(evenings):
    """Out is a pipe whose reader is gone."""
    assert evenings.serve_to_nobody() == (4, b"write fault\n")
    with open("/dev/full", "wb") as device:
        assert evenings.serve_to_nobody(device) == (4, b"")
    assert evenings.serve_to_nobody(None, (2,)) == (4, b"")
    return "out is a pipe whose reader is gone: status 4 and its line on err, and 4 with an err that is full or closed"


def closed_out(evenings):
    """Out is closed, so that a door or a client may have its number."""
    assert evenings.serve(None, closed=(1,)) == (4, b"write fault\n")
    with open("/dev/full", "wb") as device:
        assert evenings.serve(None, device, closed=(1,)) == (4, b"")
    assert evenings.serve(None, None, closed=(1, 2)) == (4, b"")
    return "out is closed: status 4 and its line on err, and 4 with an err that is full or closed"


def full_err(evenings):
    """Err is full after each number of bytes of its line, at the statuses 2, 4, 6 and 7."""
    def ended(words, source, size):
        with tempfile.TemporaryFile() as err:
            ran = subprocess.run([*SERVER, *words], input=source, stdout=subprocess.DEVNULL, stderr=err,
                                 preexec_fn=limits(size, ()))
            err.seek(0)
            return ran.returncode, err.read()

    def cut_evening(size):
        with tempfile.TemporaryFile() as err, open("/dev/full", "wb") as out:
            status, _ = evenings.serve(out, err, size)
            err.seek(0)
            return status, err.read()

    usage = b"usage: replay / view NAME / simulate N / serve PORT DESKS\n"
    for words, source, status, line in ((["serve", "7000"], b"", 2, usage), (["serve", "7000", "1"], b"", 6, b"plan game\n"),
                                        (["serve", "65535", "2"], plan(2, 2), 7, b"hall fault\n")):
        for size in range(len(line) + 1):
            assert ended(words, source, size) == (status, line[:size]), (words, size)
    line = b"write fault\n"
    for size in range(len(line) + 1):
        assert cut_evening(size) == (4, line[:size]), size
    return "err is full after each byte of its line, at the statuses 2, 4, 6 and 7: the status is the same"


def main():
    evenings = Evenings()
    for case in (full, nobody_reads, closed_out, full_err):
        print(case(evenings), flush=True)


if __name__ == "__main__":
    main()
