"""The order that the floor owes next, and what a simulated player does: found by trying them against the checks."""
from rules.checks import refusal
from rules.draws import act_number, draw_of
from rules.hand import Act
from rules.lines import break_line, event_of_line


def is_lawful(book, line):
    return refusal(book, event_of_line(line.encode())) is None


def drawn_break(book, table, seed, number):
    """The break of a table by its draw; None where the others have no room."""
    fill = book.fill_list(table)
    return fill and break_line(table, *draw_of(seed, number, fill, book.players_at(table).values()))


def next_order(book, seed, number):
    """The lawful break where one is; else the lawful balance from the lowest table, and of these to the lowest.

    Tried are the moves that may be lawful: the break of the last open table, since each other is refused by 36, and
    balances between tables whose counts differ by two or more, since each other is refused by 35 or before.
    """
    counts = book.open_counts()
    line = drawn_break(book, max(counts), seed, number)
    if line and is_lawful(book, line):
        return line
    lines = (f"balance {source} {to}" for source in counts for to in counts if counts[source] - counts[to] >= 2)
    return next((line for line in lines if is_lawful(book, line)), None)


def listed_acts(drawn, level, full_raise):
    """The acts that a drawn number lists; the first lawful one is made."""
    check, call = Act("check"), Act("call")
    if drawn == 0:
        return [Act("allin"), call, check]
    if drawn <= 2:
        return [Act("raise", level + full_raise), Act("bet", full_raise), call, check]
    return [call, check] if drawn <= 7 else [check, Act("fold")]


def simulated_act(hand, seed, number):
    """The act of the player who is due."""
    acts = listed_acts(act_number(seed, number), hand.level, hand.full_raise)
    return next(act for act in acts if hand.refusal(hand.due(), act) is None)
