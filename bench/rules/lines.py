"""Lines and events: each event has exactly one spelling."""
import re
from dataclasses import dataclass

from rules.cards import cards_of
from rules.hand import Act, Blinds

GREATEST_NUMBER = 9_007_199_254_740_991
LONGEST_LINE = 400


@dataclass(frozen=True)
class Event:
    """An event: its first word, and what the words behind it say."""

    word: str
    args: tuple = ()


def number(word):
    """`0`, or a digit 1 to 9 and further digits, at most 2^53 - 1."""
    if not re.fullmatch(r"0|[1-9][0-9]*", word) or len(word) > 16 or int(word) > GREATEST_NUMBER:
        raise ValueError
    return int(word)


def name(word):
    """A letter and then letters, digits or `_`, 1 to 16 characters; `floor` is none."""
    if not re.fullmatch(r"[A-Za-z][A-Za-z0-9_]{0,15}", word) or word == "floor":
        raise ValueError
    return word


def row(word):
    """52 cards with nothing between them; a card may come twice."""
    if not re.fullmatch(r"([23456789TJQKA][cdhs]){52}", word):
        raise ValueError
    return tuple(cards_of(word))


def place(word):
    """A table 1 to 64, a point, and a seat 1 to 10."""
    table, point, seat = word.partition(".")
    if not point or not (1 <= number(table) <= 64 and 1 <= number(seat) <= 10):
        raise ValueError
    return int(table), int(seat)


def list_of(reader):
    """1 to 10 members, separated by commas."""
    def read(word):
        members = word.split(",")
        if len(members) > 10:
            raise ValueError
        return tuple(reader(member) for member in members)
    return read


def one_of(*words):
    def read(word):
        if word not in words:
            raise ValueError
        return word
    return read


def act_of(words):
    """`fold`, `check`, `call` or `allin`, or `bet` or `raise` with an amount."""
    if len(words) == 1:
        kind = one_of("fold", "check", "call", "allin")(words[0])
        return Act(kind)
    kind, amount = words
    return Act(one_of("bet", "raise")(kind), number(amount))


def blinds_of(words):
    """The small and the big blind, the unit, and the ante of a level that has one."""
    if not 3 <= len(words) <= 4 or words[3:] == ["0"]:
        raise ValueError
    return Blinds(*map(number, words))


def event_of_words(words):
    """The event of a line's words; ValueError outside of the grammar."""
    word, rest = words[0], words[1:]
    if word == "shares":
        if not 1 <= len(rest) <= 64:
            raise ValueError
        return Event(word, tuple(number(each) for each in rest))
    if word == "blinds":
        return Event(word, blinds_of(rest))
    if word == "act":
        table, player, *act = rest
        return Event(word, (number(table), name(player), act_of(act)))
    readers = GRAMMAR.get(word)
    if readers is None or len(readers) != len(rest):
        raise ValueError
    return Event(word, tuple(reader(each) for reader, each in zip(readers, rest)))


# The first word of a line, and how its fields are read.
GRAMMAR = {
    "game": [one_of("holdem", "omaha", "hilo")], "tables": [number], "seats": [number], "stack": [number],
    "buyin": [number], "late": [number], "limit": [number], "go": [],
    "enter": [name, number, number], "reenter": [name, number, number], "begin": [number, row], "settle": [number],
    "time": [number], "balance": [number, number], "break": [number, list_of(place), list_of(name)], "level": [],
    "race": [number, row], "hands": [one_of("on", "off")], "round": [], "stop": [],
}


def event_of_line(line):
    """The event of a line of bytes, `None` outside of the grammar; a note is one without anything behind its word."""
    if len(line) > LONGEST_LINE:
        return None
    if line.startswith(b"*"):
        return Event("*")
    try:
        return event_of_words(line.decode("ascii").split(" "))
    except ValueError:
        return None


def lines_of(text):
    """The bytes cut at line feeds; what is behind the last one is a line where it has a byte."""
    lines = text.split(b"\n")
    return lines if lines[-1] else lines[:-1]


def blinds_line(level):
    return " ".join(map(str, ("blinds", *level.numbers())))


def break_line(table, places, names):
    return f"break {table} {','.join(f'{to}.{seat}' for to, seat in places)} {','.join(names)}"


def act_line(table, player, act):
    amount = f" {act.amount}" if act.kind in ("bet", "raise") else ""
    return f"act {table} {player} {act.kind}{amount}"
