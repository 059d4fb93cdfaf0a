"""Plan files: TOML that gives the items of a plan, and to a server the session words.

Python reads TOML 1.0, and the program TOML 1.1, nested at most 80 deep, with whole numbers of 64 bits and no float that
is too great for one. So what is compared with the program has to be what both read alike, or both refuse.
"""
import re
import tomllib

from rules.hand import Blinds
from rules.lines import Event, blinds_line, name
from rules.plan import ALL_ITEMS, PLAN_ITEMS, is_wrong_line, wrong_at_go
from rules.tournament import Tournament

GAMES = ("holdem", "omaha", "hilo")
MOST_SHARES = 64
MOST_WORDS = 640


class WrongItem(Exception):
    """The first item of a plan file that is wrong."""

    def __init__(self, item):
        super().__init__(item)
        self.item = item


def file_of(data):
    """What the bytes say as TOML, which is UTF-8."""
    try:
        return tomllib.loads(data.decode())
    except ValueError:
        raise WrongItem("toml") from None


def is_number(value):
    """A whole number; `true` and `false` are none."""
    return type(value) is int


def are_numbers(value):
    return isinstance(value, list) and all(map(is_number, value))


def are_level_numbers(level):
    """Three numbers of a level, or four, where the fourth is an ante."""
    return are_numbers(level) and (len(level) == 3 or (len(level) == 4 and level[3] >= 1))


def is_of_kind(item, value):
    if item == "game":
        return value in GAMES
    if item == "blinds":
        return isinstance(value, list) and all(map(are_level_numbers, value))
    return are_numbers(value) if item == "shares" else is_number(value)


def lines_of_item(item, value):
    """The plan's lines that an item comes to: one for each level of blinds."""
    if item == "blinds":
        return [Event(item, Blinds(*level)) for level in value]
    return [Event(item, tuple(value) if item == "shares" else (value,))]


def give_item(plan, item, value):
    """Gives a plan an item, unless it is missing, of another kind or not lawful."""
    if value is None or not is_of_kind(item, value) or (item == "shares" and len(value) > MOST_SHARES):
        raise WrongItem(item)
    for line in lines_of_item(item, value):
        if is_wrong_line(plan, line):
            raise WrongItem(item)
        plan.give(line.word, line.args)


def plan_in(file):
    """A tournament that was given each item of the file, in their order, and may `go`. An empty list counts as
    missing."""
    plan = Tournament()
    given = {item: value for item, value in file.items() if value != []}
    for item in ALL_ITEMS:
        if item in PLAN_ITEMS or item in given:
            give_item(plan, item, given.get(item))
    wrong = wrong_at_go(plan)
    if wrong:
        raise WrongItem(wrong)
    return plan


def plan_lines(plan):
    """The lines of a plan, in the order of its items."""
    lines = []
    for item in ALL_ITEMS:
        if item == "blinds":
            lines += map(blinds_line, plan.blinds)
        elif item in plan.plan:
            values = plan.plan[item]
            values = values if isinstance(values, tuple) else (values,)
            lines.append(" ".join(map(str, (item, *values))))
    return lines


def lines_of_file(data):
    """The lines of the plan that the bytes are; else WrongItem."""
    return plan_lines(plan_in(file_of(data)))


def is_session_word(value):
    return isinstance(value, str) and re.fullmatch(r"[A-Za-z0-9]{1,32}", value) is not None


def is_name(key):
    try:
        return bool(name(key))
    except ValueError:
        return False


def are_words(value):
    """A table of names to session words; it may be empty."""
    return (isinstance(value, dict) and len(value) <= MOST_WORDS and all(map(is_name, value))
            and all(map(is_session_word, value.values())))


def served_of_file(data):
    """The lines of the plan, the floor's word and the players' words that the bytes are; else WrongItem."""
    file = file_of(data)
    lines = plan_lines(plan_in(file))
    for item, is_right in (("floor_word", is_session_word), ("words", are_words)):
        if not is_right(file.get(item)):
            raise WrongItem(item)
    return lines, file["floor_word"], file["words"]
