#!/usr/bin/env python3
"""Compares what the program tells players with what the model tells them, over lists of events that are made from a
seed, lawful and unlawful.

Each list is viewed by three of its players, of whom those who were dealt in come first, and by a name that never
entered. A list on which the two differ is made as short as it can be, and is printed with both texts. For each of these
views there is a second list that agrees with the first for that player, or for nobody: at each hand that begins, the
cards at the places that are not told to the player by the end of the list are put into any other order. The program has
to tell that player the same of both, byte for byte. Names that nobody can have end with the usage line.

It says how many lists there are, how many of their lines are read and told, how many hands, tabled hands and streets
were told of, and in how many hands of the second lists the deck, the cards of a player and those of the board are
others. The status is 1 where the program and the model differ.

Usage: bench/made_views.py [--lists N] [--seed N] [--unproved] [--program PATH]

The program is the one of `./floor`; with --unproved it is built from the sources before any proof, by `rt try`.
"""
import random
import sys
from collections import Counter

import lists
import runs
from rules.lines import lines_of
from rules.views import STREETS, View
from rules.worlds import other_world

PLAYERS = 3
STRANGER = "zed"
USAGE = "usage: replay / view NAME / simulate N / serve PORT DESKS\n"
NO_NAMES = ("floor", "7up", "_ann", "ann-1", "ann.", "é", 17 * "a")
NAMES = ("Floor", "floor1", "floo", "a", "Z_9", 16 * "a")


def names():
    """Views by names of all forms and by words that are no names."""
    text = b"game hilo\n"
    for name in NAMES:
        yield lists.case_of(["view", name], text)
    for words in (["view"], ["view", "ann", "ann"], ["View", "ann"], *(["view", name] for name in NO_NAMES)):
        yield runs.Case(words, text, "", 2, USAGE)


def viewers(view, rng):
    """Some players of a list, first those who were dealt in, and a name that nobody entered under."""
    entered = view.book.entries
    assert STRANGER not in entered
    dealt = {player for begun in view.begun for player in begun.hand.names.values()}
    players = sorted(rng.sample(entered, len(entered)), key=lambda player: player not in dealt)
    return players[:PLAYERS] + [STRANGER]


class Views:
    """Cases of the views of lists and of the second lists beside them, and what is counted of them."""

    def __init__(self):
        self.cases, self.told, self.counts = [], Counter(), Counter()

    def add(self, text, rng):
        """The views of a list, and a second list beside each."""
        view = View(text)
        self.counts.update(lists=1, read=len(lines_of(text)), begun=len(view.begun),
                           over=sum(begun.hand.is_over() for begun in view.begun))
        for player in viewers(view, rng):
            self.counts["views"] += 1
            self.told.update(told_words(view.lines_for(player)))
            self.cases.append(runs.case_of(["view", player], text, view.lines_for(player)))
            self.add_pair(view, player, text, rng)

    def add_pair(self, view, player, text, rng):
        """A second list that agrees for a player is told as the first is."""
        world = other_world(view, lines_of(text), player, rng)
        told = View(world.text).lines_for(player)
        assert told == view.lines_for(player), (player, text, world.text)
        self.counts.update(pairs=world.decks > 0, decks=world.decks, hands=world.hands, boards=world.boards)
        self.cases.append(runs.case_of(["view", player], world.text, told))

    def say(self):
        counts, told = self.counts, self.told
        print(f"{counts['lists']} lists, {counts['read']} lines, {counts['begun']} hands begun, {counts['over']} of "
              f"them played to their end")
        print(f"{counts['views']} views, {told.total()} lines told:", ", ".join(f"{told[word]} {word}" for word in (
            "hand", "ante", "hole", "show", *STREETS, "win", "stack", "reenter", "#")))
        print(f"{counts['pairs']} pairs of lists with other decks: {counts['decks']} decks, {counts['hands']} of them "
              f"with other cards of a player, {counts['boards']} with another board")


def told_words(lines):
    """How often each kind of line is told, by its first word; `#` is for all that the floor tells but stacks and
    re-entries."""
    words = Counter()
    for line in lines:
        front, word, *_ = line.split()
        words[word if front != "#" or word in ("stack", "reenter") else "#"] += 1
    return words


def main():
    words = runs.options(lists=300, seed=1)
    views = Views()
    for number, text in enumerate(lists.made(words)):
        views.add(text, random.Random(f"{words.seed} views {number}"))
    views.say()
    found = runs.apart(words, [*names(), *views.cases], lists.shortest)
    print(f"views that tell the program and the model apart: {found}")
    return int(found > 0)


if __name__ == "__main__":
    sys.exit(main())
