"""Tries the model of players' lines on worked cases, and on the views of the examples."""
import random

from rules.cards import cards_of, text_of
from rules.lines import lines_of
from rules.rows import EXAMPLES, HEADS_UP, PLAN, same, text_of_lines
from rules.views import View, shown_places
from rules.worlds import other_world

BEGINS = PLAN + HEADS_UP
TOLD_OF_BEGIN = [f"# {line}" for line in BEGINS] + [
    "# begin 1 1", "1: hand 1 1 1 4", "1: seat 1 ann 1000", "1: seat 4 bob 1000", "1: post ann 100", "1: post bob 200"]
ALL_IN = ["begin 1 EXCHANGED", "act 1 ann allin", "act 1 bob call", "settle 1"]
TOLD_OF_ALL_IN = ["1: ann raise 1000", "1: bob call 800", "1: show bob 2c2h", "1: show ann AhAs", "1: flop 3d3h3s",
                  "1: turn 4d", "1: river 4s", "1: win ann 2000", "# settle 1", "# stack 1 1 ann 2000",
                  "# stack 1 4 bob 0"]
TOLD_OF_FOLD = ["1: ann fold", "1: win bob 300"]


def try_whole_hand():
    """Two players all-in before the flop: the hands are tabled first, then the streets that are not dealt."""
    view = View(text_of_lines(BEGINS + ALL_IN))
    for player, own in (("bob", ["1: hole 2c2h"]), ("ann", ["1: hole AhAs"]), ("zed", []), (None, [])):
        same(f"lines of {player}", view.lines_for(player), TOLD_OF_BEGIN + own + TOLD_OF_ALL_IN)
        same(f"places shown to {player}", shown_places(view.begun[0].hand, player), {0, 1, 2, 3, 5, 6, 7, 9, 11})


def try_ante():
    """The ante is told behind the blinds, where one is posted."""
    begins = [line.replace("200 100", "200 100 200") for line in BEGINS]
    for stack, told in ((1000, ["1: ante bob 200"]), (300, ["1: ante bob 100"]), (200, [])):
        lines = [line.replace("stack 1000", f"stack {stack}") for line in begins]
        view = View(text_of_lines(lines + ["begin 1 SORTED"]))
        same(f"an ante of {stack}", view.lines_for()[len(lines) + 6:len(lines) + 6 + len(told)], told)
        same(f"antes of {stack}", sum(" ante " in line for line in view.lines_for()), len(told))


def try_reentry():
    """A re-entry is told to all; a refused one is not, and no more is one of somebody who is in."""
    lines = ["enter cat 1 6", "begin 1 EXCHANGED", "act 1 ann fold", "act 1 bob allin", "act 1 cat call", "settle 1"]
    view = View(text_of_lines(BEGINS + lines + ["reenter cat 1 2", "reenter bob 1 6", "reenter bob 1 2", "stop"]))
    for player in ("bob", "zed"):
        same(f"{player} is told of a re-entry", view.lines_for(player)[-3:],
             ["# stack 1 6 cat 2000", "# reenter bob 1 2", "# stop"])


def try_folded_hand():
    """Where ann folds bob is told the same by both decks, and nobody is told a card of hers."""
    for deck in ("SORTED", "EXCHANGED"):
        view = View(text_of_lines(BEGINS + [f"begin 1 {deck}", "act 1 ann fold"]))
        same(f"bob's lines by {deck}", view.lines_for("bob"), TOLD_OF_BEGIN + ["1: hole 2c2h"] + TOLD_OF_FOLD)
        same("places shown to bob", shown_places(view.begun[0].hand, "bob"), {0, 2})
        same("lines of nobody", view.lines_for(), TOLD_OF_BEGIN + TOLD_OF_FOLD)
        same("places shown to nobody", shown_places(view.begun[0].hand, None), set())


def try_what_is_not_told():
    """Notes and refused events are not told, and so it is before the plan is whole."""
    text = text_of_lines(["* a note", "stop", "tables 65", "tables 2", "tables 2", "enter ann 1 1"]) + b"*\xff\n\xff\n"
    same("refused", View(text).lines_for("ann"), ["# tables 2"])


def try_other_worlds():
    """A list that agrees for bob has other cards at all places but bob's own and the flop's. Bob is told the same."""
    text = text_of_lines(BEGINS + ["begin 1 SORTED", "act 1 ann call", "act 1 bob check", "act 1 bob check"])
    view = View(text)
    same("a flop is shown", shown_places(view.begun[0].hand, "bob"), {0, 2, 5, 6, 7})
    world = other_world(view, lines_of(text), "bob", random.Random(7))
    same("bob is told the same", View(world.text).lines_for("bob"), view.lines_for("bob"))
    same("what is exchanged", (world.decks, world.hands, world.boards), (1, 1, 1))
    row = cards_of(lines_of(world.text)[len(BEGINS)].split()[2].decode())
    same("places of bob and of the flop", text_of(row[place] for place in (0, 2, 5, 6, 7)), "2c2h3d3h3s")
    same("a deck", sorted(row), sorted(view.begun[0].hand.deck))


def try_view_examples():
    """Each view that stands beside an example: its player is the word before `view`."""
    for path in sorted(EXAMPLES.rglob("*.view")):
        example, player, _ = path.name.split(".")
        told = View(path.with_name(f"{example}.txt").read_bytes()).lines_for(player)
        same(path.name, told, path.read_text(encoding="ascii").splitlines())


VIEW_TRIES = (try_whole_hand, try_ante, try_reentry, try_folded_hand, try_what_is_not_told, try_other_worlds,
               try_view_examples)
