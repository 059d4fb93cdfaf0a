"""The server under test, and what its text has to be."""
import os
import pathlib
import subprocess
import tempfile
import time

TOP = pathlib.Path(__file__).resolve().parents[2]
# `./floor --unproved` serves for a look before any proof
PROGRAM = os.environ.get("PROGRAM", str(TOP / "floor")).split()
LEVELS = [[25, 50, 25], [50, 100, 25], [100, 200, 100], [200, 400, 100], [500, 1000, 500], [1000, 2000, 500],
          [2000, 4000, 1000], [5000, 10000, 5000]]


def plan(tables, seats):
    """Writes a plan file with a word for the floor and for each player."""
    words = "".join(f'p{each} = "w{each}"\n' for each in range(1, tables * seats + 1))
    return (f'game = "holdem"\ntables = {tables}\nseats = {seats}\nstack = 10000\nbuyin = 20\nlate = 1\n'
            f'blinds = {LEVELS}\nshares = [500, 300, 200]\nfloor_word = "f"\n[words]\n{words}').encode()


class Server:
    """`serve` at so many desks, with its text in a file."""

    def __init__(self, port, desks, plan):
        self.text = pathlib.Path(tempfile.mkdtemp()) / "served.txt"
        with open(self.text, "wb") as out:
            self.process = subprocess.Popen(PROGRAM + ["serve", str(port), str(desks)], stdin=subprocess.PIPE, stdout=out,
                                            stderr=subprocess.PIPE, cwd=TOP)
        self.process.stdin.write(plan)
        self.process.stdin.close()

    def seconds(self):
        """Gives the processor seconds that it took so far."""
        stat = pathlib.Path(f"/proc/{self.process.pid}/stat").read_text().rsplit(")", 1)[1].split()
        return (int(stat[11]) + int(stat[12])) / os.sysconf("SC_CLK_TCK")

    def memory(self, which):
        """Gives its memory in kB: the most that it had, `VmHWM`, or what it has, `VmRSS`."""
        status = pathlib.Path(f"/proc/{self.process.pid}/status").read_text()
        return int(status.split(which + ":")[1].split()[0])

    def all_entered(self):
        """Notes when it had let in everybody, and its memory then."""
        self.began, self.first = time.time(), self.memory("VmRSS")

    def ends(self):
        """Notes what it used until now, before the stop."""
        self.took, self.used = time.time() - self.began, self.seconds()
        self.peak, self.last = self.memory("VmHWM"), self.memory("VmRSS")

    def end(self):
        said = self.process.stderr.read().decode()
        status = self.process.wait(60)
        assert (status, said) == (0, ""), (status, said)
        return self.text.read_bytes()

    def played(self, text):
        acts = text.count(b"\nact ") + text.count(b"\ntime ")
        return f"{self.took:.0f} s, {acts} acts, {acts / self.took:.0f} a second"

    def cost(self, text):
        lines = text.count(b"\n")
        return (f"processor {self.used:.1f} s, peak of memory {self.peak} kB, {self.first} kB once all had entered, "
                f"{1024 * (self.last - self.first) / lines:.0f} bytes more for each of the text's {lines} lines")


def floor(word, *more, text):
    """Runs an offline word over a text."""
    ran = subprocess.run(PROGRAM + [word, *more], input=text, stdout=subprocess.PIPE, cwd=TOP)
    assert ran.returncode == 0, ran.returncode
    return ran.stdout


def check_replay(text):
    """Sees that each line of a served text is ok, and that the report is the same."""
    report = text[text.index(b"\n* report\n") + 1:]
    replayed = floor("replay", text=text)
    assert replayed == b"ok\n" * text.count(b"\n") + report, "the text does not replay"
    return report


def check_view(text, name, lines):
    """Sees that a client was told what `view` tells: the floor's lines, and those of each table, from the first on."""
    whole = floor("view", name, text=text).decode().splitlines()
    parts = {}
    for line in map(bytes.decode, lines):
        parts.setdefault(line.split(" ", 1)[0], []).append(line)
    for part, told in parts.items():
        all_told = [line for line in whole if line.split(" ", 1)[0] == part]
        assert told[:len(all_told)] == all_told[:len(told)], (name, part)
        # the acts of a hand that the stop made void are in no text
        assert not any(line.split(" ")[1] == "hand" for line in told[len(all_told):]), (name, part)
