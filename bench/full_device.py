#!/usr/bin/env python3
"""A device that is full after so many bytes, tried at every one of them, as out of the offline commands: the status is 4,
err has its one line, and what was written before is the front of the whole output; so it is with an err that is full,
goes nowhere or is closed. And a pipe whose reader is gone, with the system's way of telling that. serving/failing_streams
tries the server. Needs python3.
Usage: bench/full_device.py"""
import os
import pathlib
import resource
import signal
import subprocess
import sys
import tempfile

TOP = pathlib.Path(__file__).resolve().parents[1]
sys.path.insert(0, str(TOP / "bench"))
os.chdir(TOP)
REPLAY = os.environ.get("REPLAY", str(TOP / "floor")).split()
EXAMPLE = pathlib.Path("examples/side_pots.txt").read_bytes()
EVENING = pathlib.Path("examples/league_evening.toml").read_bytes()
RUNS = [(["replay"], EXAMPLE), (["view", "cat"], EXAMPLE), (["simulate", "7"], EVENING)]


def full_after(size, closed=()):
    """Has a process write no more than so many bytes to any file, with these streams closed, and end by the signal that
    the system has for a pipe whose reader is gone, unless it sees to that itself."""
    def limit():
        signal.signal(signal.SIGPIPE, signal.SIG_DFL)
        signal.signal(signal.SIGXFSZ, signal.SIG_IGN)
        resource.setrlimit(resource.RLIMIT_FSIZE, (size, size))
        for stream in closed:
            os.close(stream)
    return limit


def run(words, source, size, err=subprocess.PIPE, closed=()):
    """Runs a command with an out that is full after so many bytes, and gives its status, out and err."""
    with tempfile.TemporaryFile() as out:
        ran = subprocess.run(REPLAY + words, input=source, stdout=out, stderr=err, preexec_fn=full_after(size, closed))
        out.seek(0)
        return ran.returncode, out.read(), ran.stderr


def run_to_nobody(words, source, closed=()):
    """Runs a command with a pipe as out whose reader is gone, and gives its status and err."""
    read, write = os.pipe()
    os.close(read)
    ran = subprocess.run(REPLAY + words, input=source, stdout=write, stderr=subprocess.PIPE,
                         preexec_fn=full_after(resource.RLIM_INFINITY, closed))
    os.close(write)
    return ran.returncode, ran.stderr


def run_with_err(words, source, size):
    """Runs a command with an err that is full after so many bytes, and out as a device that is full, and gives its status
    and err."""
    with tempfile.TemporaryFile() as err, open("/dev/full", "wb") as out:
        ran = subprocess.run(REPLAY + words, input=source, stdout=out, stderr=err, preexec_fn=full_after(size))
        err.seek(0)
        return ran.returncode, err.read()


def main():
    usage = b"usage: replay / view NAME / simulate N / serve PORT DESKS\n"
    for size in range(len(usage) + 1):
        assert run_with_err(["view"], b"", size) == (2, usage[:size]), size
    for words, source in RUNS:
        whole = subprocess.run(REPLAY + words, input=source, stdout=subprocess.PIPE, check=True).stdout
        for size in range(len(whole)):
            assert run(words, source, size) == (4, whole[:size], b"write fault\n"), (words, size)
        assert run(words, source, len(whole)) == (0, whole, b"")
        with open("/dev/full", "wb") as full:
            assert run(words, source, 1, full)[:2] == (4, whole[:1])
        assert run(words, source, 1, subprocess.DEVNULL)[:2] == (4, whole[:1])
        assert run(words, source, 1, None, (2,)) == (4, whole[:1], None)
        assert run(words, source, len(whole), None, (2,)) == (0, whole, None)
        assert run_to_nobody(words, source) == (4, b"write fault\n"), words
        assert run_to_nobody(words, source, (2,))[0] == 4, words
        for size in range(len(b"write fault\n") + 1):
            assert run_with_err(words, source, size) == (4, b"write fault\n"[:size]), (words, size)
        print(f"{' '.join(words)}: out is full after each of {len(whole)} bytes, or nobody reads it; err is full after each "
              "byte of its line, or closed")


if __name__ == "__main__":
    main()
