"""Tries the model on worked cases whose answers, stacks, pots and places were worked out from the rules."""
from pathlib import Path

from rules.cards import (SORTED_DECK, award_of_pot, best_high, best_low, cards_of, halves_of, pots_of, shares_of,
                         text_of)
from rules.checks import refusal
from rules.hand import Act, Blinds, Hand, Marks, next_marks
from rules.lines import Event
from rules.places import prizes_of, standings_of
from rules.step import replayed
from rules.tournament import Table, Tournament


def sorted_but(*exchanged):
    """The sorted deck with pairs of cards exchanged."""
    row = text_of(SORTED_DECK)
    for one, other in exchanged:
        row = row.replace(one, "-").replace(other, one).replace("-", other)
    return row


SORTED = sorted_but()
EXCHANGED = sorted_but(("2d", "Ah"), ("2s", "As"))
# Of three players the first to be dealt in has two aces.
ACES = sorted_but(("2c", "As"), ("2s", "Ah"))
TWICE = SORTED.replace("2d", "2c")

PLAN = ["game holdem", "tables 1", "seats 6", "stack 1000", "buyin 100", "late 1", "blinds 100 200 100",
        "shares 700 300", "go"]
TWO_TABLES = ["game holdem", "tables 2", "seats 2"] + PLAN[3:]
THREE_TABLES = ["game holdem", "tables 3"] + PLAN[2:]
HEADS_UP = ["enter ann 1 1", "enter bob 1 4"]

EXAMPLES = Path(__file__).resolve().parents[2] / "examples"

failures = []


def same(what, got, want):
    if got != want:
        failures.append(what)
        print(f"{what}:\n  got  {got}\n  want {want}")


def filled(line):
    """A line in which a word stands for a row of cards."""
    for word, row in (("SORTED", SORTED), ("EXCHANGED", EXCHANGED), ("ACES", ACES), ("TWICE", TWICE)):
        line = line.replace(word, row)
    return line


def text_of_lines(lines):
    return "".join(filled(line) + "\n" for line in lines).encode()


def script(what, begins, steps, report=()):
    """Plays the steps behind lines that are all accepted; a step is a line and a refusal, or a line that is ok."""
    steps = [step if isinstance(step, tuple) else (step, "ok") for step in list(begins) + list(steps)]
    answers, lines = replayed(text_of_lines(line for line, _ in steps))
    for (line, want), got in zip(steps, answers):
        same(f"{what}: {line}", got, want)
    for line in report:
        same(f"{what}: the report has {line}", line in lines, True)


def hand(stacks, marks, blinds, game="holdem", seats=6, cap=0):
    return Hand(game, seats, Marks(*marks), Blinds(*blinds), {seat: str(seat) for seat in stacks}, stacks, cap=cap)


def plays(what, played, acts):
    """Acts of seats: `3 raise 600`, with a number behind `=` where it is refused."""
    for line in acts:
        wanted = int(line.partition("= ")[2] or 0) or None
        seat, kind, *amount = line.partition(" = ")[0].split()
        act = Act(kind, int(amount[0]) if amount else 0)
        same(f"{what}: {line} is due", played.due(), int(seat))
        got = played.refusal(int(seat), act)
        same(f"{what}: {line}", got, wanted)
        if got is None:
            played.act(int(seat), act)


def try_examples():
    for path in sorted(EXAMPLES.glob("*.txt")):
        answers, report = replayed(path.read_bytes())
        same(path.name, answers + report, path.with_suffix(".out").read_text(encoding="ascii").splitlines())


def try_lines():
    same("an empty input", replayed(b""), ([], ["* report", "* level 0", "* sold 0", "* removed 0", "* added 0",
                                                "* rest 0", "* play 0", "* end"]))
    script("entries", PLAN, HEADS_UP + [
        ("enter ann 1 2", "no 6 NameKnown"), ("enter cat 1 4", "no 10 SeatTaken"), ("enter cat 1 7", "no 9 NoSeat"),
        ("enter cat 2 1", "no 8 NoTable"), "stop", ("enter cat 1 2", "no 5 Stopped")],
        ["* level 1", "* sold 2000", "* rest 2000", "* play 0", "* seat 1 1 ann 1000", "* seat 1 4 bob 1000"])
    lines = b"*" + b"x" * 399 + b"\n" + b"*" + b"x" * 400 + b"\n" + b"\xff\n" + b"stop"
    same("notes and wrong lines", replayed(lines)[0], ["ok", "no 1 Syntax", "no 1 Syntax", "no 2 NoPlan"])
    for line in ["bet 0400", "act 1 ann bet 0400", "act  1 ann fold", "stop\r", " stop", "", "game Holdem",
                 "enter floor 1 1", "enter a 9007199254740992 1", "shares" + " 1" * 65]:
        same(f"not in the grammar: {line}", replayed(line.encode() + b"\n")[0], ["no 1 Syntax"])


def try_hands_by_lines():
    script("all-in and called", PLAN, HEADS_UP + [
        "begin 1 EXCHANGED", "act 1 ann allin", "act 1 bob call", "settle 1", ("enter cat 1 2", "no 43 Over")],
        ["* sold 2000", "* rest 2000", "* seat 1 1 ann 2000", "* out 1 ann 140", "* out 2 bob 60"])
    script("bets of two players", PLAN, HEADS_UP + [
        "begin 1 EXCHANGED", ("act 1 bob check", "no 21 NotTurn"), ("act 1 cat fold", "no 7 NameUnknown"),
        ("settle 1", "no 23 NotOver"), ("act 1 ann check", "no 24 CheckFacing"),
        ("act 1 ann bet 400", "no 26 BetFacing"), ("act 1 ann raise 300", "no 28 TooSmall"),
        ("act 1 ann raise 1100", "no 29 PastStack"), ("act 1 ann raise 450", "no 32 NotUnit"),
        "act 1 ann raise 400", ("act 1 bob raise 500", "no 28 TooSmall"), "act 1 bob call",
        ("act 1 bob call", "no 25 NothingToCall"), ("act 1 bob raise 400", "no 27 NothingToRaise"),
        ("act 1 bob bet 100", "no 28 TooSmall"), ("act 1 ann check", "no 21 NotTurn"), "act 1 bob check"])
    script("a newcomer during a hand", PLAN, HEADS_UP + [
        "enter cat 1 6", "begin 1 SORTED", "enter dan 1 2", "act 1 ann fold", "act 1 bob fold", "settle 1"],
        ["* seat 1 2 dan 1000", "* seat 1 1 ann 1000", "* seat 1 4 bob 900", "* seat 1 6 cat 1100"])
    short = [line.replace("stack 1000", "stack 100") for line in PLAN]
    script("all-in by the blinds", short, HEADS_UP + [
        "begin 1 SORTED", ("act 1 ann fold", "no 22 HandOver"), "stop"],
        ["* seat 1 1 ann 100", "* seat 1 4 bob 100"])


def try_reentries():
    """Who is out may buy in again while entry is open, at a new seat, and stays in the entry list."""
    out = HEADS_UP + ["enter cat 1 6", "begin 1 EXCHANGED", "act 1 ann fold", "act 1 bob allin", "act 1 cat call",
                      "settle 1"]
    script("a re-entry", PLAN, [("reenter bob 1 4", "no 7 NameUnknown")] + out + [
        ("enter bob 1 4", "no 6 NameKnown"), ("reenter dan 1 2", "no 7 NameUnknown"),
        ("reenter bob 1 6", "no 10 SeatTaken"), ("reenter bob 2 4", "no 8 NoTable"), ("reenter bob 1 7", "no 9 NoSeat"),
        ("reenter cat 1 2", "no 45 StillIn"), "reenter bob 1 4", ("reenter bob 1 3", "no 45 StillIn"), "stop",
        ("reenter bob 1 3", "no 5 Stopped")],
        ["* sold 4000", "* rest 4000", "* seat 1 1 ann 1000", "* seat 1 4 bob 1000", "* seat 1 6 cat 2000"])
    same("no row is left of it", [line for line in replayed(text_of_lines(PLAN + out + ["reenter bob 1 4"]))[1]
                                  if line.startswith("* out")], [])
    script("no re-entry", PLAN, out, ["* sold 3000", "* out 3 bob 0"])
    script("over", PLAN, HEADS_UP + ["begin 1 EXCHANGED", "act 1 ann allin", "act 1 bob call", "settle 1",
                                     ("reenter bob 1 4", "no 43 Over"), ("reenter ann 1 2", "no 43 Over")])
    two_levels = PLAN[:7] + ["blinds 200 400 100"] + PLAN[7:]
    script("entry is closed", two_levels, out + ["level", ("reenter bob 1 4", "no 12 LateClosed"),
                                                 ("reenter cat 1 2", "no 12 LateClosed")])
    script("out again", PLAN, out + [
        "reenter bob 1 2", "begin 1 ACES", "act 1 bob allin", "act 1 cat call", "act 1 ann fold", "settle 1"],
        ["* sold 4000", "* seat 1 1 ann 800", "* seat 1 6 cat 3200", "* out 3 bob 0"])


def try_tables():
    script("another table has fewer", TWO_TABLES, ["enter ann 1 1", ("enter bob 1 2", "no 11 NotFewest")])
    script("breaks", THREE_TABLES, [
        "enter ann 1 1", "enter bob 2 1", "enter cat 3 1", ("break 2 1.2 bob", "no 36 NotNextToBreak"),
        ("break 3 1.3 cat", "no 38 DrawWrong"), ("break 3 1.2 bob", "no 38 DrawWrong"), "break 3 1.2 cat"],
        ["* seat 1 2 cat 1000"])
    script("no room", TWO_TABLES, [
        "enter ann 1 1", "enter bob 2 1", "enter cat 1 2", ("break 2 1.1 bob", "no 37 NoRoom")])
    script("no level, race or round", PLAN, [
        "enter ann 1 1", ("level", "no 39 LastLevel"), ("race 1 SORTED", "no 42 NoRace"),
        ("round", "no 41 SwitchWrong"), ("hands off", "no 41 SwitchWrong")])
    script("hand-for-hand", TWO_TABLES, [
        "enter ann 1 1", "enter bob 2 1", "enter cat 1 2", "enter dan 2 2", "hands on", "begin 1 SORTED",
        "act 1 ann fold", "settle 1", ("begin 1 SORTED", "no 18 RoundDone"), ("round", "no 40 RoundOpen"),
        "begin 2 SORTED", "time 2", "settle 2", "round", ("hands on", "no 41 SwitchWrong")])


def try_moves():
    book = seated(9, {1: range(1, 10), 2: [1, 2, 3, 4, 6, 7, 9]}, {1: (7, 8, 9), 2: (3, 4, 5)})
    same("the next big blind", book.next_big_at(1), 1)
    same("the worst seat", book.worst_seat(2), 8)
    same("a lawful balance", refusal(book, Event("balance", (1, 2))), None)
    book = seated(6, {1: range(1, 5), 2: [1, 2, 3, 5, 6], 3: [1, 2]}, {})
    same("a fill list", book.fill_list(3), [(1, 5), (1, 6)])
    book = seated(6, {1: range(1, 7), 2: [1, 2, 3, 5, 6], 3: [1, 2]}, {})
    same("no fill list", book.fill_list(3), None)
    book = seated(6, {1: [1, 2, 3]}, {})
    book.stacks = dict(zip(("p1_1", "p1_2", "p1_3"), (1025, 50, 3075)))
    book.tables[1] = Table(unit=25, pending=100)
    book.race(1, SORTED_DECK)
    same("a race", ([book.stacks[f"p1_{seat}"] for seat in (1, 2, 3)], book.removed, book.added),
         ([1000, 100, 3100], 150, 200))


def seated(seats, players, marks):
    """A tournament after `go` whose tables have players in seats, and marks."""
    book = Tournament()
    book.plan = {"game": "holdem", "tables": len(players), "seats": seats, "stack": 1000, "buyin": 100, "late": 1,
                 "shares": (700, 300)}
    book.blinds = [Blinds(100, 200, 100)]
    book.go()
    for table, taken in players.items():
        book.tables[table].marks = Marks(*marks[table]) if table in marks else None
        for seat in taken:
            book.seats[table, seat] = f"p{table}_{seat}"
            book.stacks[f"p{table}_{seat}"] = 1000
    book.hands_begun = 1
    return book


def try_bets():
    stacks = {1: 5000, 2: 5000, 3: 5000, 4: 800, 5: 5000, 6: 1000}
    begins = ["3 raise 600", "4 allin", "5 call"]
    plays("a short all-in does not reopen", hand(stacks, (6, 1, 2), (100, 200, 100)),
          begins + ["6 fold", "1 fold", "2 fold", "3 raise 1200 = 31"])
    plays("a full all-in reopens", hand(stacks, (6, 1, 2), (100, 200, 100)),
          begins + ["6 allin", "1 fold", "2 fold", "3 raise 1400"])
    short = hand({1: 1000, 2: 1000, 3: 50}, (1, 2, 3), (100, 200, 50))
    plays("a short big blind", short, ["1 call", "2 check = 24", "2 call"])
    same("its pots", pots_in(short), [(150, [1, 2, 3]), (300, [1, 2])])
    for behind, wanted in ((300, " = 28"), (100, "")):
        flop = hand({1: 200 + behind, 4: 200 + behind}, (1, 1, 4), (100, 200, 100))
        plays(f"a small bet with {behind} behind", flop, ["1 call", "4 check", "4 check", f"1 bet 100{wanted}"])
    omaha = dict.fromkeys((1, 2, 3), 5000)
    plays("pot limit", hand(omaha, (1, 2, 3), (100, 200, 100), "omaha"), ["1 raise 800 = 30", "1 raise 700"])
    plays("all-in past the pot", hand(omaha, (1, 2, 3), (100, 200, 100), "omaha"), ["1 allin = 30"])


def pots_in(played):
    """The pots of a hand as it stands."""
    return pots_of({seat: played.put_in_hand(seat) for seat in played.stacks}, played.live, played.ante)


def try_antes():
    """The big blind posts the ante behind the blind: it is in the first pot, and in no call."""
    blinds, marks = (100, 200, 100, 200), (1, 2, 3)
    folds = hand(dict.fromkeys((1, 2, 3), 1000), marks, blinds)
    plays("all fold to the ante", folds, ["1 fold", "2 fold"])
    same("the ante is won by folds", (folds.ante, folds.awards(), folds.stacks_after()),
         (200, {3: 500}, {1: 1000, 2: 900, 3: 1100}))
    calls = hand(dict.fromkeys((1, 2, 3), 1000), marks, blinds)
    plays("an ante is in no call", calls, ["1 call", "2 call", "3 check"])
    same("one pot with the ante", pots_in(calls), [(800, [1, 2, 3])])
    short = hand({1: 1000, 2: 1000, 3: 300}, marks, blinds)
    same("all-in by the ante", (short.put_in_hand(3), short.ante, short.behind(3)), (200, 100, 0))
    plays("a raise above an ante", short, ["1 raise 600", "2 call"])
    same("the ante is in the first pot", pots_in(short), [(700, [1, 2, 3]), (800, [1, 2])])
    for stack in (100, 200):
        same(f"no ante of {stack}", hand({1: 1000, 2: 1000, 3: stack}, marks, blinds).ante, 0)
    omaha = hand(dict.fromkeys((1, 2, 3), 5000), marks, blinds, "omaha")
    plays("the pot without and with an ante", omaha, [
        "1 raise 800 = 30", "1 raise 700", "2 fold", "3 call", "3 bet 1800 = 30", "3 bet 1700"])
    script("wrong antes", [], [
        ("blinds 100 200 100 50", "no 4 PlanWrong blinds"), ("blinds 100 200 100 0", "no 1 Syntax"),
        ("blinds 100 200 100 1000000100", "no 4 PlanWrong blinds"), ("blinds 100 200 100 0200", "no 1 Syntax"),
        ("blinds 100 200 100 100 100", "no 1 Syntax"), "blinds 100 200 100 1000000000", "blinds 100 200 100"])


def limited(stacks, unit=100, cap=4, game="holdem"):
    return hand(stacks, (1, 2, 3), (100, 200, unit), game, cap=cap)


def try_limits():
    """With fixed limit a bet or raise is by one bet, up to the cap, and by less where somebody is all-in."""
    deep = dict.fromkeys((1, 2, 3), 5000)
    for game in ("holdem", "omaha", "hilo"):
        plays(f"up to the cap in {game}", limited(deep, game=game), [
            "1 raise 300 = 28", "1 raise 500 = 30", "1 raise 400", "2 raise 600", "3 raise 800", "1 raise 1000 = 30",
            "1 allin = 30", "1 raise 800 = 28", "1 call", "2 call", "2 bet 100 = 28", "2 bet 300 = 30", "2 allin = 30",
            "2 check", "3 bet 200", "1 call", "2 raise 400", "3 raise 600", "1 raise 800", "2 raise 1000 = 30",
            "2 call", "3 call", "2 bet 200 = 28", "2 bet 400", "3 raise 800", "1 raise 1000 = 28", "1 fold", "2 call",
            "2 check", "3 bet 400"])
    flop = ["1 call", "2 call", "3 check", "2 bet 200", "3 allin", "1 call"]
    plays("less than half a bet", limited({1: 5000, 2: 5000, 3: 490}, 10), flop + [
        "2 raise 490 = 31", "2 allin = 30", "2 call"])
    plays("half a bet", limited({1: 5000, 2: 5000, 3: 500}, 10), flop + ["2 raise 490 = 28", "2 raise 500"])
    plays("half a bet is a wager", limited({1: 5000, 2: 5000, 3: 500}, 10, 2), flop + ["2 raise 500 = 30", "2 call"])
    plays("less is none", limited({1: 5000, 2: 5000, 3: 490}, 10, 2), flop[:-1] + ["1 raise 490", "2 raise 690 = 30"])
    plays("a cap of one", limited({1: 300, 2: 5000, 3: 5000}, cap=1), [
        "1 raise 300 = 30", "1 allin = 30", "1 call", "2 call", "3 raise 400 = 30", "3 check", "2 bet 200",
        "3 raise 400 = 30"])
    short = limited({1: 5000, 2: 5000, 3: 50}, 50, 2)
    plays("a short big blind is a wager", short, ["1 raise 400", "2 raise 600 = 30"])
    script("wrong caps", [], [
        ("limit 0", "no 4 PlanWrong limit"), ("limit 10", "no 4 PlanWrong limit"), ("limit 01", "no 1 Syntax"),
        ("limit", "no 1 Syntax"), "limit 9", ("limit 4", "no 4 PlanWrong limit"), ("go", "no 4 PlanWrong game")])
    script("a cap behind the plan", PLAN, [("limit 4", "no 3 PlanLate")])
    script("a cap in any place", ["limit 4"] + PLAN + HEADS_UP, [
        "begin 1 SORTED", ("act 1 ann raise 500", "no 30 PastPot"), "act 1 ann raise 400",
        ("act 1 bob allin", "no 30 PastPot")])


def try_values():
    put = {1: 100, 2: 300, 3: 300, 4: 200}
    same("pots with a folded player", pots_of(put, {1, 2, 3}), [(400, [1, 2, 3]), (500, [2, 3])])
    board = cards_of("Ks Qs 7d 5c 2h")
    hole = {1: cards_of("Kd Kh"), 2: cards_of("Ad Jc"), 3: cards_of("Ah Jd")}
    awards = [award_of_pot("holdem", amount, 100, seats, hole, board) for amount, seats in pots_of(put, {1, 2, 3})]
    same("awards", awards, [{1: 400}, {2: 300, 3: 200}])
    same("three shares", list(shares_of(1000, 100, [1, 2, 3]).values()), [400, 300, 300])
    same("halves", halves_of(500, 100), (300, 200))
    board = cards_of("3c 4d 5s 9h 9d")
    hole = {2: cards_of("As 2s Kc Qc"), 5: cards_of("Ah 2h Jd Td")}
    same("one split", award_of_pot("hilo", 600, 100, [2, 5], hole, board), {2: 300, 5: 300})
    same("two of four", best_high("omaha", cards_of("Ah Ks Qc 2d"), cards_of("3h 7h 9h Jh 4c")),
         [0, 14, 13, 11, 9, 7])
    hole = cards_of("As 2d Kc Kd")
    same("a low", best_low(hole, cards_of("3h 4s 8c Kh Qd")), [8, 4, 3, 2, 1])
    same("no low", best_low(hole, cards_of("3h 4s Tc Kh Qd")), None)
    board = cards_of("3c 4s 5h Kd Kc")
    same("a run to five", best_high("holdem", cards_of("Ah 2d"), board), [4, 5])
    same("a run to six", best_high("holdem", cards_of("6h 2c"), board), [4, 6])


def try_marks():
    cases = [(None, (1, 3, 5), (1, 3, 5)), ((1, 3, 5), (1, 5, 6), (3, 5, 6)), ((1, 3, 5), (1, 3, 6), (3, 5, 6)),
             ((3, 5, 6), (1, 3, 6), (5, 6, 1)), ((1, 3, 5), (1, 3, 4, 5, 6), (3, 5, 6)),
             ((1, 3, 5), (3, 5), (5, 5, 3)), ((1, 1, 4), (1, 2, 4), (2, 4, 1)), ((1, 1, 4), (1, 4, 5), (1, 4, 5))]
    for old, occupied, want in cases:
        marks = next_marks(Marks(*old) if old else None, 6, list(occupied))
        same(f"marks {old} {occupied}", (marks.button, marks.small, marks.big), want)
        waits = {4} if occupied == (1, 3, 4, 5, 6) else set()
        same(f"who waits {old} {occupied}", set(marks.waiting), waits)


def try_places():
    book = seated(6, {1: [1]}, {})
    book.plan |= {"buyin": 100, "shares": (500, 300, 199)}
    book.entries = ["p1_1", "one", "two", "three"]
    book.busts = [("one", 800, 0), ("two", 500, 0), ("three", 500, 0)]
    same("places of one group", standings_of(book),
         [(1, "p1_1", 201), (2, "one", 120), (3, "two", 40), (3, "three", 39)])
    book.reentries = 1
    same("a re-entry pays", standings_of(book), [(1, "p1_1", 251), (2, "one", 150), (3, "two", 50), (3, "three", 49)])
    book = seated(6, {1: [1, 2]}, {})
    book.entries, book.busts = ["p1_1", "p1_2", "two"], [("two", 500, 0)]
    same("third of three", [rank for rank, _, _ in standings_of(book)], [3])
    book.entries.append("late")
    book.seats[1, 3] = "late"
    same("fourth of four", [rank for rank, _, _ in standings_of(book)], [4])
    same("what is left goes to the first", prizes_of(2, 0, 100, (500, 300, 199)), [140, 60])
    same("more shares than entries", prizes_of(2, 0, 100, (400, 250, 200, 100, 50)), [150, 50])
    book = seated(6, {1: [6]}, {})
    book.plan |= {"buyin": 102}
    book.entries, book.busts = ["bob", "p1_6", "ann"], [("ann", 1000, 0), ("bob", 1000, 0)]
    same("a tie for the last place paid", standings_of(book), [(1, "p1_6", 215), (2, "bob", 46), (2, "ann", 45)])


def try_rows(*more):
    for tries in (try_examples, try_lines, try_hands_by_lines, try_tables, try_moves, try_bets, try_antes, try_limits,
                  try_values, try_marks, try_places, *more):
        tries()
    print("rows: all as worked out" if not failures else f"rows: {len(failures)} differ")
    return 1 if failures else 0
