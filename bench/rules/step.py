"""The step: an event is answered by the first check that holds, and carried out where none does."""
from rules.checks import NAMES, refusal
from rules.lines import event_of_line, lines_of
from rules.plan import ALL_ITEMS, wrong_item
from rules.tournament import Tournament

EFFECTS = {
    "go": Tournament.go, "enter": Tournament.enter, "reenter": Tournament.reenter, "begin": Tournament.begin,
    "act": Tournament.act, "time": Tournament.time, "settle": Tournament.settle, "balance": Tournament.balance,
    "break": Tournament.break_table, "level": Tournament.next_level, "race": Tournament.race,
    "hands": Tournament.hands, "round": Tournament.end_round, "stop": Tournament.stop,
}


def apply(tournament, event):
    """Answers an event, and carries it out where it meets no check. A note changes nothing."""
    if event.word == "*":
        return "ok"
    number = refusal(tournament, event)
    if number:
        item = f" {wrong_item(tournament, event)}" if number == 4 else ""
        return f"no {number} {NAMES[number]}{item}"
    if event.word in ALL_ITEMS:
        tournament.give(event.word, event.args)
    else:
        EFFECTS[event.word](tournament, *event.args)
    return "ok"


def replayed(text, tournament=None):
    """The answers to the lines of the bytes, and the lines of the report."""
    tournament = tournament or Tournament()
    events = [event_of_line(line) for line in lines_of(text)]
    answers = [apply(tournament, event) if event else "no 1 Syntax" for event in events]
    return answers, tournament.report()
