#!/usr/bin/env python3
"""A plain model of the program by its rules, written apart from the code of the crates.

`model.py < LINES` writes what `replay` writes: an answer to each line, and the report. `model.py view NAME < LINES`
writes what that player is told. `model.py simulate N < PLAN` writes what `simulate N` writes over a plan file, or on
err the first wrong item with status 6, and `model.py events N < PLAN` the events of that simulation, a line for each,
which `replay` takes. `model.py --rows` tries the model on worked cases. `made_lists.py` compares the program with it
over made lists of events, `made_views.py` over what players are told of such lists, `made_plans.py` over made plan
files, `simulations.py` over the simulations of many numbers, and `sessions.py` over made scripts of sessions.
"""
import sys

from rules.plan_file import WrongItem, lines_of_file
from rules.rows import try_rows
from rules.session_rows import SESSION_TRIES
from rules.simulate import Simulation
from rules.simulation_rows import TRIES
from rules.step import replayed
from rules.view_rows import VIEW_TRIES
from rules.views import View


def told_of(words, data):
    """The lines that `replay` and `view NAME` write over a list of events."""
    if words[0] == "view":
        return View(data).lines_for(words[1])
    answers, report = replayed(data)
    return answers + report


def put(lines):
    sys.stdout.write("".join(line + "\n" for line in lines))
    return 0


def simulate(what, number):
    try:
        simulation = Simulation(int(number), lines_of_file(sys.stdin.buffer.read()))
    except WrongItem as wrong:
        sys.stderr.write(f"plan {wrong.item}\n")
        return 6
    return put(simulation.told() if what == "simulate" else simulation.lines)


def main():
    words = sys.argv[1:]
    if words == ["--rows"]:
        return try_rows(*TRIES, *VIEW_TRIES, *SESSION_TRIES)
    if words and words[0] != "view":
        return simulate(*words)
    return put(told_of(words or ["replay"], sys.stdin.buffer.read()))


if __name__ == "__main__":
    sys.exit(main())
