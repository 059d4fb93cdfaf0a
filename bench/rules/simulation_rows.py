"""Tries the model on worked cases of draws, plan files, orders and simulations."""
import random
import re

from rules.cards import SORTED_DECK
from rules.director import drawn_break, is_lawful, listed_acts, next_order
from rules.draws import deck_of, draw_of, seed_of, shuffled, words_from, words_of
from rules.hand import Act
from rules.plan_file import WrongItem, lines_of_file, served_of_file
from rules.rows import EXAMPLES, same, seated
from rules.simulate import Simulation
from rules.step import replayed

DRAWN_ORDERS = EXAMPLES.parent / "crates" / "rule_tests" / "src" / "breaks.rt"
KINDS = {"Deck": 0, "Seats": 1, "Names": 2, "Act": 3}

FILE = """game = "holdem"
tables = 3
seats = 9
stack = 10000
buyin = 200
late = 2
blinds = [[25, 50, 25], [50, 100, 25], [100, 200, 100], [500, 1000, 100], [2000, 4000, 500], [10000, 20000, 500]]
shares = [500, 300, 200]
"""
LINES = ["game holdem", "tables 3", "seats 9", "stack 10000", "buyin 200", "late 2", "blinds 25 50 25",
         "blinds 50 100 25", "blinds 100 200 100", "blinds 500 1000 100", "blinds 2000 4000 500",
         "blinds 10000 20000 500", "shares 500 300 200"]


def pcg_words(state, stream):
    """The words of the generator that the tests of `rand` are made with."""
    step = 2 * stream + 1
    state = ((state + step) * 6364136223846793005 + step) % (1 << 64)
    while True:
        word, turn = (state >> 18 ^ state) >> 27 & 0xffffffff, state >> 59
        yield (word >> turn | word << 32 - turn) & 0xffffffff
        state = (state * 6364136223846793005 + step) % (1 << 64)


def try_draws():
    """The words of a key of zero bytes, an order of the tests of `rand`, and the orders that `rand` itself gave, which
    the tests of draws hold."""
    words = words_from(bytes(32))
    same("words", [next(words) for _ in range(3)], [0xade0b876, 0x903df1a0, 0xe56a5d40])
    same("thirteen", shuffled(range(13), pcg_words(414, 11634580027462260723)),
         [5, 11, 0, 8, 7, 12, 6, 4, 9, 3, 1, 2, 10])
    orders = re.findall(r"Seed::(\w+)\((\d+)\),\s*DrawKind::(\w+),\s*(\d+),\s*&\[([\d,\s]+)\]",
                        DRAWN_ORDERS.read_text(encoding="utf-8"))
    same("how many orders", len(orders), 60)
    for seed, number, kind, k, order in orders:
        seed = bytes(32 * [int(number)]) if seed == "Equal" else seed_of(int(number))
        order = [int(item) for item in re.findall(r"\d+", order)]
        same(f"{kind} {k}", shuffled(sorted(order), words_of(seed, KINDS[kind], int(k))), order)
    same("a deck", sorted(deck_of(seed_of(7), 5)), SORTED_DECK)
    same("16 bytes of the seed", deck_of(bytes(16) + 16 * b"x", 5), deck_of(bytes(32), 5))
    fill, names = [(2, 3), (2, 4), (4, 1)], ["ann", "bob", "cat"]
    drawn = draw_of(seed_of(7), 5, fill, names)
    same("a draw", (sorted(drawn[0]), sorted(drawn[1])), (fill, names))


def outcome(read, text):
    """What a reader makes of a text, or the wrong item."""
    try:
        return read(text.encode() if isinstance(text, str) else text)
    except WrongItem as wrong:
        return wrong.item


def names(item, *changes):
    """Each change of the file, a text and what stands in its place, makes this item the first that is wrong."""
    for old, new in changes:
        same(f"{new} for {old}", outcome(lines_of_file, FILE.replace(old, new, 1)), item)


def try_plan_files():
    same("a plan", outcome(lines_of_file, FILE), LINES)
    backwards = [line for line in reversed(FILE.splitlines()) if not line.startswith("late")]
    same("in any order, with other keys", outcome(lines_of_file, "\r\n".join(
        ['"late" = 0x2', "words = 3", *backwards, "[more]", "game = 1"])), LINES)
    same("no buy-in", outcome(lines_of_file, FILE.replace("= 200", "= 0"))[4], "buyin 0")
    names("toml", ('"holdem"', "holdem"), ("seats", "tables"), ("= 9", "= 09"), ("= 9", "= 9\ngame.more = 1"))
    names("game", ('"holdem"', '"stud"'), ('game = "holdem"', ""), ("game", "Game"), ('"holdem"', "1"))
    names("tables", ("tables", "tables.more"), ("= 3", "= 3.0"), ("= 3", "= true"), ("= 3", "= 65"), ("= 3", "= -1"))
    names("seats", ("= 9", "= 11"), ("= 9", "= 1"), ("= 9\n", "= 11\nlate = 2\n[more]\n"))
    names("stack", ("= 10000", "= [10000]"), ("= 10000", "= -25"), ("= 10000", "= 10010"), ("= 10000", "= 0"))
    names("buyin", ("= 200", "= 1000000001"), ("= 200", '= "200"'))
    names("late", ("late = 2", "late = 41"), ("late = 2", "late = 7"))
    names("blinds", ("[[25, 50, 25]", "[[25, 50]"), ("[[25, 50, 25]", "[[25, 50, 25, 0]"), ("[[25, 50, 25]", "[25"),
          *(("[[25, 50, 25]", f"[[25, 50, 25, {wrong}]") for wrong in
            ("-25", "7", "25.0", "25, 25", "[25]", "1000000025")),
          ("[[25, 50, 25]", "[[25, 50, 7]"), ("[[25, 50, 25]", "[[50, 50, 50]"), ("blinds = ", "blinds = [] #"),
          ("blinds = [", "blinds = [" + 35 * "[25, 50, 25],"), ("50, 100, 25", '50, "100", 25'))
    names("shares", *(("[500, 300, 200]", wrong) for wrong in (
        "[]", str(65 * [1]), "[500, 501]", "[500, -1]", "[500, 300, 201]", '["500"]', "500")))
    same("an ante", outcome(lines_of_file, FILE.replace("100, 25]", "100, 25, 75]"))[6:8],
         ["blinds 25 50 25", "blinds 50 100 25 75"])
    same("a cap", outcome(lines_of_file, "limit = 4\n" + FILE), LINES + ["limit 4"])
    same("an empty list is no cap", outcome(lines_of_file, "limit = []\n" + FILE), LINES)
    too_late = FILE.replace("late = 2", "late = 7")
    for wrong in ("0", "10", "-1", '"4"', "4.0", "true", "[4]", "{}", "9223372036854775807"):
        for file, item in ((FILE, "limit"), (too_late, "limit"), (FILE.replace(", 200]", ", 0]"), "shares")):
            same(f"the cap {wrong}", outcome(lines_of_file, f"limit = {wrong}\n{file}"), item)
    same("the first wrong item", outcome(lines_of_file, too_late.replace("= 9", "= 1")), "seats")
    same("late and stack", outcome(lines_of_file, too_late.replace("10000", "10010", 1)), "late")
    same("shares before late", outcome(lines_of_file, too_late.replace(", 200]", ", 0]")), "shares")
    same("no UTF-8", outcome(lines_of_file, FILE.encode() + b"# \xff"), "toml")


def try_served_files():
    floor, words = 'floor_word = "f1"\n', '[words]\nann = "a"\nFloor = "B2"\n'
    same("words", outcome(served_of_file, floor + FILE + words), (LINES, "f1", {"ann": "a", "Floor": "B2"}))
    same("nobody", outcome(served_of_file, floor + FILE + "[words]"), (LINES, "f1", {}))
    for wrong in ("", "floor_word = 1\n", 'floor_word = ""\n', f'floor_word = "{33 * "f"}"\n', 'floor_word = "f-"\n'):
        same(wrong, outcome(served_of_file, wrong + FILE + words), "floor_word")
        same(f"{wrong} and no words", outcome(served_of_file, wrong + FILE), "floor_word")
    many = "".join(f"p{number} = 'a'\n" for number in range(641))
    for wrong in ("", "[[words]]\nann = 'a'", "[words]\nfloor = 'a'", "[words]\n1ann = 'a'", "[words]\nann = 'a b'",
                  "[words]\nann = 1", f"[words]\n{many}"):
        same(wrong[:40], outcome(served_of_file, floor + FILE + wrong), "words")
    same("an empty list", outcome(served_of_file, f"words = []\n{floor}{FILE}"), "words")
    same("twice", outcome(served_of_file, f"tables = 1\n{floor}{FILE}{words}"), "toml")


def order_by_trying_all(book, seed, number):
    """The first that is accepted of all breaks, each by its draw, and then of all balances."""
    tables = list(book.tables)
    breaks = [drawn_break(book, table, seed, number) for table in tables if book.is_open(table)]
    balances = [f"balance {source} {to}" for source in tables for to in tables]
    return next((line for line in list(filter(None, breaks)) + balances if is_lawful(book, line)), None)


def some_book(rng):
    """Tables with some seats taken; now and then one plays, races or has begun in a round."""
    seats, tables = rng.randint(2, 6), range(1, rng.randint(1, 5) + 1)
    taken = {table: rng.sample(range(1, seats + 1), rng.randint(0, seats)) for table in tables}
    marks = {table: tuple(rng.sample(range(1, seats + 1), 2)) for table in tables if rng.random() < 0.3}
    book = seated(seats, taken, {table: (button, button, big) for table, (button, big) in marks.items()})
    for table in tables:
        book.tables[table].hand = "a hand" if rng.random() < 0.15 else None
        book.tables[table].pending = 200 if rng.random() < 0.05 else None
    book.hand_for_hand = rng.random() < 0.2
    book.round = set(rng.sample(tables, 1)) if rng.random() < 0.2 else set()
    return book


def try_orders():
    rng, seed = random.Random("orders"), seed_of(7)
    for number in range(400):
        book = some_book(rng)
        if book.seats:
            same(f"order {number}", next_order(book, seed, number), order_by_trying_all(book, seed, number))
    book = seated(9, {1: range(1, 10), 2: [1, 2, 3, 4, 6, 7, 9]}, {1: (7, 8, 9), 2: (3, 4, 5)})
    same("a balance is owed", next_order(book, seed, 5), "balance 1 2")
    book.move(book.seats[1, 1], (2, 8))
    same("nothing is owed", next_order(book, seed, 5), None)
    same("acts by number", [[act.kind for act in listed_acts(drawn, 200, 200)] for drawn in (0, 2, 3, 8)],
         [["allin", "call", "check"], ["raise", "bet", "call", "check"], ["call", "check"], ["check", "fold"]])
    same("amounts", listed_acts(1, 300, 200)[:2], [Act("raise", 500), Act("bet", 200)])


def try_plan_examples():
    """Each plan of the examples is simulated by the number 7."""
    for path in sorted(EXAMPLES.glob("*.toml")):
        told = Simulation(7, lines_of_file(path.read_bytes())).told()
        same(path.name, told, path.with_suffix(".out").read_text(encoding="ascii").splitlines())


def try_simulations():
    """A simulation of three tables of nine: its figures, and its events as lines. And one of two tables in which levels
    and races come."""
    simulation = Simulation(7, LINES)
    told = dict(re.findall(r"^(?:\* )?(\w+) (\d+)$", "\n".join(simulation.told()), re.MULTILINE))
    figures = [int(told[word]) for word in ("left", "sold", "play", "rest")]
    same("figures", figures, [1, 270000, 0, 270000 - int(told["removed"]) + int(told["added"])])
    same("prizes", sum(int(line.split()[-1]) for line in simulation.told() if line.startswith("* out")), 5400)
    same("how it begins", simulation.lines[:16], LINES + ["go", "enter p1 1 1", "enter p2 2 1"])
    text = "".join(line + "\n" for line in simulation.lines).encode()
    same("its lines", replayed(text), (["ok"] * len(simulation.lines), simulation.book.report()))
    slow = ["game omaha", "tables 2", "seats 3", "stack 2000", "buyin 5", "late 1", "blinds 5 10 5", "blinds 10 20 10",
            "blinds 50 100 50", "shares 1000"]
    slow = Simulation(3, slow)
    hands = [line.split()[0] for line in slow.lines if line.startswith(("begin", "level", "race"))]
    same("levels after ten rounds", hands.index("level") <= 20 and hands.count("level") == 2, True)
    same("what follows a level", {hands[place + 1] for place, word in enumerate(hands) if word == "level"}, {"race"})


TRIES = (try_draws, try_plan_files, try_served_files, try_orders, try_plan_examples, try_simulations)
