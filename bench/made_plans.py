#!/usr/bin/env python3
"""Compares the program with the model over plan files that are made from a seed.

There are right ones, spelled in many ways and with other keys beside; one for each of many ways to make one wrong in
one place; ones that are wrong in two; and ones with bytes that are no UTF-8. `simulate 1` is run over each: its status,
its text where the plan is right, and else the item on err are compared. It prints each plan that tells the two apart,
at most ten of them, and says how many plans were right and which items were wrong. The status is 1 where a plan told
them apart.

Usage: bench/made_plans.py [--plans N] [--seed N] [--unproved] [--program PATH]

There are so many right plans, and as many that are wrong in two places. The program is the one of `./floor`; with
--unproved it is built from the sources before any proof, by `rt try`.
"""
import sys
from collections import Counter

import runs
from rules.plan import ALL_ITEMS
from rules.plan_file import WrongItem, lines_of_file
from rules.plan_maker import NO_UTF_8, PlanMaker, item_ways, no_utf_8, statement_ways, wrong_ways
from rules.simulate import Simulation

ORDER = ("toml", *ALL_ITEMS)


def right_plans(seed, count):
    for number in range(count):
        maker = PlanMaker(f"{seed} right {number}")
        maker.add_others()
        yield None, maker.data()


def wrong_plans(seed):
    for number, (item, way) in enumerate(wrong_ways()):
        maker = PlanMaker(f"{seed} wrong {number}")
        way(maker)
        yield item, maker.data()
    for number in range(len(NO_UTF_8)):
        maker = PlanMaker(f"{seed} bytes {number}")
        yield "toml", no_utf_8(maker.data(), maker.rng)


def twice_wrong_plans(seed, count):
    """Two items are wrong, or one is and the file is no TOML; what comes first is named."""
    ways = statement_ways() + item_ways()
    for number in range(count):
        maker = PlanMaker(f"{seed} twice {number}")
        two = maker.rng.sample(ways, 2)
        while two[0][0] == two[1][0]:
            two = maker.rng.sample(ways, 2)
        two.sort(key=lambda way: ORDER.index(way[0]), reverse=True)
        for _, way in two:
            way(maker)
        yield two[1][0], maker.data()


def case_of(item, data):
    """What the model says of a plan; the item is the one that was made wrong."""
    words = ["simulate", "1"]
    try:
        lines = lines_of_file(data)
    except WrongItem as wrong:
        assert wrong.item == item, (wrong.item, item, data)
        return runs.Case(words, data, "", 6, f"plan {wrong.item}\n")
    assert item is None, (item, data)
    return runs.case_of(words, data, Simulation(1, lines).told())


def main():
    words = runs.options(plans=150, seed=1)
    plans = [*right_plans(words.seed, words.plans), *wrong_plans(words.seed),
             *twice_wrong_plans(words.seed, words.plans)]
    items = Counter(item for item, _ in plans)
    print(f"{len(plans)} plans, {items.pop(None)} of them right;",
          ", ".join(f"{item} wrong in {items[item]}" for item in ORDER))
    cases = [case_of(item, data) for item, data in plans]
    found = runs.apart(words, cases)
    print(f"plans that tell the program and the model apart: {found}")
    return int(found > 0)


if __name__ == "__main__":
    sys.exit(main())
