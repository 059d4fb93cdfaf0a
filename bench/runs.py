"""The program, run beside the model: the built one, or by `rt try` the sources before any proof."""
import argparse
import os
import re
import subprocess
import tempfile
from dataclasses import dataclass

TOP = os.path.dirname(os.path.dirname(os.path.abspath(__file__)))
CRATE = os.path.join(TOP, "crates", "floor_replay")
PROGRAM = os.path.join(CRATE, "out", "floor_replay")
MOST_PRINTED = 10


@dataclass(frozen=True)
class Case:
    """A run of the program: its words, its input, and what the model says that it writes and ends with."""

    words: list
    data: bytes
    out: str
    status: int = 0
    err: str = ""


def case_of(words, data, lines):
    """A run that writes lines."""
    return Case(words, data, "".join(line + "\n" for line in lines))


def options(**numbers):
    """The words that a script is run with: numbers with their defaults, and which program is meant."""
    words = argparse.ArgumentParser()
    for name, default in numbers.items():
        words.add_argument(f"--{name}", type=int, default=default)
    words.add_argument("--unproved", action="store_true")
    words.add_argument("--program", default=PROGRAM)
    return words.parse_args()


def build(program):
    """Has `./floor` prove and build the program where it is not there."""
    if not os.path.exists(program):
        subprocess.run([os.path.join(TOP, "floor"), "replay"], stdin=subprocess.DEVNULL, stdout=subprocess.DEVNULL,
                       check=True)


def ended(out, status=0, err=""):
    """What a run writes; its status and err are put behind it where they are not those of an accepted input."""
    return out if status == 0 and not err else f"{out}status {status}, err {err!r}\n"


def ran(program, words, data):
    run = subprocess.run([program, *words], input=data, capture_output=True, check=False)
    return ended(run.stdout.decode("ascii", "replace"), run.returncode, run.stderr.decode("ascii", "replace"))


def print_case(case, given):
    print(f"---- a run on which they differ: {' '.join(case.words)}, over\n"
          f"{case.data.decode('utf-8', 'backslashreplace')}\n---- the program\n{given}"
          f"---- the model\n{ended(case.out, case.status, case.err)}")


def differs(program, case):
    return ran(program, case.words, case.data) != ended(case.out, case.status, case.err)


def as_it_is(program, case):
    return case


def compared(program, cases, shortest):
    """Runs the program in each case. Prints the first cases that differ, as short as they can be made, and counts all
    of them."""
    found = 0
    for case in filter(lambda case: differs(program, case), cases):
        found += 1
        if found <= MOST_PRINTED:
            short = shortest(program, case)
            print_case(short, ran(program, short.words, short.data))
    return found


def put_case(folder, name, case):
    """A case as `rt try` takes it. It compares out alone; where there is err, it is given no out, and shows both."""
    files = {name: case.data, f"{name}.args": "\n".join(case.words).encode()}
    if not case.err:
        files[f"{name}.stdout"] = case.out.encode()
    for path, content in files.items():
        with open(os.path.join(folder, path), "wb") as file:
            file.write(content)


def is_as_told(name, case, run):
    """Whether `rt try` says of a case that it ended with its status and the same out, or shows its out and err."""
    line = re.escape(f"{case.err}case={name} run=ended status={case.status} ")
    if not case.err:
        line += ".*output=expected"
    elif f"== {name}\n{case.out}== " not in f"{run.stdout}== ":
        return False
    return re.search(f"^{line}", run.stderr, re.MULTILINE) is not None


def tried(cases):
    """Has `rt try` run the program in each case, by one build of the sources before any proof. Prints the first cases
    that differ, and counts all of them."""
    with tempfile.TemporaryDirectory() as folder:
        for number, case in enumerate(cases):
            put_case(folder, f"case{number}", case)
        run = subprocess.run(["rt", "try", "--cases", folder], capture_output=True, text=True, check=False, cwd=CRATE)
    different = [case for number, case in enumerate(cases) if not is_as_told(f"case{number}", case, run)]
    for case in different[:MOST_PRINTED]:
        print_case(case, "another text or status, as told below\n")
    if different:
        print(run.stderr[-3000:])
    return len(different)


def apart(words, cases, shortest=as_it_is):
    """How many cases tell the program that is meant and the model apart."""
    if words.unproved:
        return tried(cases)
    build(words.program)
    return compared(words.program, cases, shortest)
