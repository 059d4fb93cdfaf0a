"""Tries the model of sessions on worked cases: a hand that is served, a line that is cut off, and links that fail."""
from rules.rows import same
from rules.sessions import Client, Script, played

PLAN = b"""game = "holdem"
tables = 1
seats = 2
stack = 1000
buyin = 100
late = 1
blinds = [[100, 200, 100]]
shares = [700, 300]
floor_word = "f"
words = { ann = "a" }
"""
OPENING = ["# game holdem", "# tables 1", "# seats 2", "# stack 1000", "# buyin 100", "# late 1",
           "# blinds 100 200 100", "# shares 700 300", "# go"]
ENTRIES = ["# enter ann 1 1", "# enter bob 1 2"]


def give(*lines):
    return [("give", line.encode() + b"\n") for line in lines]


def floor():
    return Client([*give("hello floor f", "begin 1", "enter ann 1 1", "enter bob 1 2"), ("wait", 100, b"# settle 1"),
                   *give("stop"), ("finish",)])


def ann(failing=()):
    return Client([*give("act 1 fold", "hello ann a", "watch 1"), ("wait", 100, b"1: hand 1"),
                   *give("act 1 fold", "quit")], failing=failing)


def evening(of_ann):
    """The floor lets both enter, a hand is opened, ann is served, her hand is settled, and the floor stops."""
    return played(Script(PLAN, bytes(32), 2, [floor(), Client(give("quit")), of_ann], [
        ("come", 0, 0), ("turn", 0, 8), ("work", 1), ("serve", 1, 1), ("serve", 2, 1), ("work", 1), ("turn", 0, 50),
        ("work", 1)]))


def put(hall, client):
    """What was put on a client's link, without her cards."""
    lines = hall.links[client].written.decode().splitlines()
    return [line for line in lines if not line.startswith("1: hole ")]


def try_served_hand():
    """Two enter, one folds, and the floor stops behind the settlement."""
    hall = evening(ann())
    same("steps", hall.lines, [
        "come", "turn Took Replied Took Replied Took Replied Took Replied", "work Opened", "serve Quit", "serve Quit",
        "work Settled", "turn Idled Took Replied Ended", "work Ended"])
    same("the floor is told", put(hall, 0), [
        "= ok", *OPENING, "= no 1 Syntax", ENTRIES[0], "= ok", ENTRIES[1], "= ok", "# begin 1 1", "# settle 1",
        "# stack 1 1 ann 900", "# stack 1 2 bob 1100", "# stop", "= ok"])
    same("ann is told", put(hall, 2), [
        "= who", "= ok", *OPENING, *ENTRIES, "# begin 1 1", "= ok", "1: hand 1 1 1 2", "1: seat 1 ann 1000",
        "1: seat 2 bob 1000", "1: post ann 100", "1: post bob 200", "1: ann fold", "1: win bob 300", "= ok", "= ok"])
    same("who quits is told", put(hall, 1), ["= ok"])
    same("ends", hall.ends, {0: "Ended", 1: "Quit", 2: "Quit"})
    same("asked for", hall.desks, [[], ["ann 1 ann fold 0 said"]])


def try_failing_takes():
    """Where a call of her link fails before her act, she does not act; from then on she does."""
    for call in range(1, 14):
        hall = evening(ann((call,)))
        end = "Quit" if call == 13 else "LinkRead" if call % 2 else "LinkWrite"
        same(f"end where call {call} fails", hall.ends[2], end)
        same(f"acts where call {call} fails", len(hall.desks[1]), int(call >= 10))


def try_cut_line():
    """A last line without a line feed is a line, and one client at a desk comes behind another."""
    cut = Client([*give("hello ann a"), ("give", b"act 1 fo"), ("finish",)])
    hall = played(Script(PLAN, bytes(32), 1, [cut, Client(give("quit"))], [("serve", 0, 0), ("serve", 1, 0)]))
    same("a cut line is told", put(hall, 0), ["= ok", *OPENING, "= no 1 Syntax"])
    same("ends of a cut line", hall.ends, {0: "Ended", 1: "Quit"})


SESSION_TRIES = (try_served_hand, try_failing_takes, try_cut_line)
