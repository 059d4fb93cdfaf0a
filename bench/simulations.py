#!/usr/bin/env python3
"""Compares the program's `simulate N` with the model's over many numbers and plans.

Each number has a plan of its own, made from a seed: the three games in turn, at one table to six, with levels that end
the tournament soon, some with antes, some with fixed limit and some with both. The text of `simulate N` is compared,
which tells how many hands and events there were and who came in where; and `replay` is given the events of the model,
which have to be accepted, each of them, and to end with the report. It prints each simulation that tells the two apart,
at most ten of them, and says how many events there were of each kind. The status is 1 where a simulation told them apart.

Usage: bench/simulations.py [--numbers N] [--seed N] [--unproved] [--program PATH]

The program is the one of `./floor`; with --unproved it is built from the sources before any proof, by `rt try`.
"""
import random
import sys
from collections import Counter

import runs
from rules.hand import Blinds
from rules.lines import GREATEST_NUMBER
from rules.plan_file import lines_of_file
from rules.simulate import Simulation

GAMES = ("holdem", "omaha", "hilo")
KINDS = ("enter", "balance", "break", "begin", "act", "settle", "level", "race", "stop")


def levels(rng, count):
    """Blinds that are raised much at each level, so that few chips are left behind them soon; half of the plans have
    antes."""
    unit = rng.choice([1, 5, 25])
    small, made, antes = unit * rng.choice([1, 2]), [], rng.choice([[0], [0, 1, 2, 2, 5]])
    for _ in range(count):
        made.append(Blinds(small, small * 2, unit, small * rng.choice(antes)))
        unit *= rng.choice([1, 1, 2, 3, 5])
        small = unit * -(-small * rng.choice([1, 2, 2, 3]) // unit)
    return made


def plan_for(number, rng):
    """A plan file of a few tables. Where bets are limited, stacks are short and there are many levels."""
    game, cap = GAMES[number % 3], rng.choice([0, 0, 0, 1, 3, 4, 9])
    is_limited = cap or game != "holdem"
    blinds = levels(rng, rng.choice([7, 9] if is_limited else [1, 3, 6]))
    late = rng.randint(1, min(3, len(blinds)))
    unit, big = blinds[late - 1].unit, blinds[0].big
    stack = unit * max(1, big * rng.choice([3, 20, 60] if is_limited else [1, 3, 10, 50]) // unit)
    shares = rng.choice([[1000], [700, 300], [500, 300, 200], [400, 250, 150, 100, 50], 64 * [15]])
    return f"""game = "{game}"
tables = {rng.choice([1, 1, 2, 3, 3, 4, 6])}
seats = {rng.choice([2, 3, 4, 6, 7, 9, 10])}
stack = {stack}
buyin = {rng.choice([0, 1, 30, 999])}
late = {late}
blinds = {[list(level.numbers()) for level in blinds]}
shares = {shares}
""" + (f"limit = {cap}\n" if cap else "")


def numbers_and_plans(count, seed):
    """Small numbers, and some as great as a number may be."""
    rng = random.Random(seed)
    for number in range(count):
        plan = plan_for(number, rng)
        yield GREATEST_NUMBER - number if number % 20 == 19 else number, plan.encode()


def cases_of(number, data, simulation):
    """A run of `simulate`, and one of `replay` over the model's events."""
    events = "".join(line + "\n" for line in simulation.lines).encode()
    oks = len(simulation.lines) * ["ok"]
    return [runs.case_of(["simulate", str(number)], data, simulation.told()),
            runs.case_of(["replay"], events, oks + simulation.book.report())]


def main():
    words = runs.options(numbers=200, seed=1)
    cases, events, games, plans = [], Counter(), Counter(), Counter()
    for number, data in numbers_and_plans(words.numbers, words.seed):
        simulation = Simulation(number, lines_of_file(data))
        cases += cases_of(number, data, simulation)
        events.update(line.split()[0] for line in simulation.lines)
        book = simulation.book
        games[book.plan["game"]] += simulation.hands
        plans["limit" in book.plan, any(level.ante for level in book.blinds)] += 1
    print(f"{words.numbers} simulations, {events.total()} events:",
          ", ".join(f"{word} {events[word]}" for word in KINDS))
    print(f"plans: {plans[False, True]} with antes, {plans[True, False]} with a cap, {plans[True, True]} with both")
    print("hands:", ", ".join(f"{game} {games[game]}" for game in GAMES))
    found = runs.apart(words, cases)
    print(f"runs that tell the program and the model apart: {found}")
    return int(found > 0)


if __name__ == "__main__":
    sys.exit(main())
