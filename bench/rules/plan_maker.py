"""Makes plan files from a seed: right ones, spelled in many ways, and ones that are wrong in one place or in two.

All keep to what TOML 1.0 and 1.1 read alike or both refuse, and to whole numbers of 64 bits.
"""
import random

from rules.hand import Blinds
from rules.plan import ALL_ITEMS

# Values that are wrong for an item, whatever the rest says.
KINDS = ('"1"', "1.0", "true", "nan", "2026-05-27", "19:30:00", "[]", "[[]]", "{}", "{ most = 1 }", "[1.5]")
AMOUNTS = ("-1", "1000000001", "4294967296", "9007199254740992", "9223372036854775807", "-9223372036854775808")
WRONG_VALUES = {
    "game": ('"stud"', '"Holdem"', '" holdem"', '"holdem "', '""', '"omaha\\n"', "1", '["holdem"]'),
    "tables": ("0", "65", "[1]", *AMOUNTS),
    "seats": ("0", "1", "11", "[2]", *AMOUNTS),
    "stack": ("0", "[5]", *AMOUNTS),
    "buyin": ("[5]", *AMOUNTS),
    "late": ("0", "41", "[1]", *AMOUNTS),
    "blinds": (
        "1", "[1, 2, 1]", "[[1, 2]]", "[[1, 2, 1, 0]]", "[[1, 2, 1, -1]]", "[[1, 2, 1, 1, 1]]", "[[2, 4, 2, 3]]",
        "[[1, 2, 1, 1000000001]]", "[[1, 2, 1, 1.0]]", '[[1, 2, 1, "1"]]', "[[1, 2, 1, true]]", "[[1, 2, 1, [1]]]",
        "[[1, 2, 1, 1], [1, 2, 1, 0]]", "[[1, 2, 1], [4, 8, 2, 1]]", "[[1, 2, 1, 9223372036854775807]]",
        "[[1, 2, 1], []]", "[[1, 2, 1], 3]", "[[[1, 2, 1]]]",
        '[["1", 2, 1]]', "[[1.0, 2, 1]]", "[[1, 2, true]]", "[{ small = 1, big = 2, unit = 1 }]", "[[0, 2, 1]]",
        "[[1, 2, 0]]", "[[2, 1, 1]]", "[[-1, 2, 1]]", "[[1, 2, -1]]", "[[1, 1000000001, 1]]", "[[2, 5, 2]]",
        "[[3, 6, 2]]", "[[5, 10, 5], [6, 12, 6]]", "[[5, 10, 5], [7, 14, 7]]", "[[5, 10, 5], [5, 10, 1]]",
        "[[1, 2, 1], [7, 14, 7]]",
        f"[{', '.join(41 * ['[1, 2, 1]'])}]"),
    "shares": (
        "1000", "[0]", "[1001]", "[-1]", "[500, 501]", "[500, 300, 201]", "[500, 0]", "[500, -1]", '["500"]', "[500.0]",
        "[[500]]", "[500, true]", f"[{', '.join(65 * ['1'])}]", "[9223372036854775807]"),
    "limit": ("0", "10", "[4]", '"4"', *AMOUNTS),
}

# Statements that make a file no TOML.
NO_TOML = (
    "more", "more =", "= 1", "more = yes", "more = 01", "more = 1__0", "more = 1_", "more = _1", "more = 0x",
    "more = 1.", "more = .5", "more = +-1", "more = - 1", 'more = "open', "more = 'open", 'more = """open',
    'more = "a\nb"', 'more = "\\q"', "more = [1", "more = [1 2]", "more = [1,,2]", "more = {a = 1",
    "more = {a = 1 b = 2}", "more = {a = 1, a = 2}", "more = {a = 1} 2", "more = 1 less = 2", "more less = 1",
    "more. = 1", ".more = 1", "more = 1\nmore = 2", "more = 1\nmore.less = 2", 'more = 1\n"more" = 2',
    "more.less = 1\nmore.less = 2")
NO_TOML_TAILS = (
    "[more", "[more]]", "[[more]", "[]", "[more]\n[more]", "[more]\n[[more]]", "[[more]]\n[more]", "[game]",
    "[[blinds]]", "[game.more]", "[more] a = 1", "[more]\nless = 1\nless = 2")
NO_UTF_8 = (b"\xff", b"\xc3", b"\xc3(", b"\xc0\xaf", b"\xed\xa0\x80", b"\xf4\x90\x80\x80", b"\xe2\x82")

# Keys that are no items.
OTHERS = (
    'title = "an evening"', "date = 2026-05-27", "begins = 19:30:00", "rake = 0.05", "most = inf", "floor_word = 5",
    "words = 3", 'dealers = ["ann", "bob"]', 'room = { name = "hall", rows = [1, [2, 3]] }', 'place.name = "hall"',
    '"" = 1', "Game = 1", '"game " = 2', '"gamé" = "é"', 'text = """\ngame = 5\n"""', 'mixed = [1, "a", [2.5], {}]',
    "at = 2026-05-27T19:30:00Z", "stacks = 5", "shares_ = []", "1 = 2")
TAILS = ("", "", "", '[more]\ngame = 1\ntables = "x"', "[[rounds]]\nseats = 0\n[[rounds]]\nseats = 1",
         "[more.game]\nseats = 0", "[more]", "[more]\n[more.late]\n[rounds]\nseats.more = 0")


class PlanMaker:
    """Makes one plan file. `statements` are its lines by item, and `tail` what stands behind them."""

    def __init__(self, seed):
        self.rng = random.Random(seed)
        self.tail = []
        self.keeps_order = False
        self.levels = self.some_levels()
        self.late = self.rng.randint(1, len(self.levels))
        self.unit = self.levels[self.late - 1].unit
        self.statements = {item: self.statement(item, value) for item, value in self.values().items()}

    # -- a right plan --

    def some_levels(self):
        rng, levels = self.rng, []
        unit = rng.choice([1, 2, 5, 25, 100])
        for _ in range(rng.choice([1, 1, 2, 3])):
            small = unit * rng.choice([1, 1, 2])
            levels.append(Blinds(small, small * rng.choice([1, 2, 2]), unit, unit * rng.choice([0, 0, 1, 2, 3])))
            unit *= rng.choice([1, 2, 3, 4, 5, 6])
        return levels

    def values(self):
        """A plan of few players with few chips, so that its tournament ends soon; some have a cap, and some an empty
        list in its place, which counts as missing."""
        rng = self.rng
        shares = sorted((rng.randint(1, 400) for _ in range(rng.randint(1, 5))), reverse=True)
        while sum(shares) > 1000:
            shares.pop()
        cap = {"limit": self.number(rng.randint(1, 9))} if rng.random() < 0.4 else {}
        if rng.random() < 0.1:
            cap = {"limit": "[]"}
        return {
            "game": self.text(rng.choice(["holdem", "omaha", "hilo"])),
            "tables": self.number(rng.choice([1, 1, 1, 2, 3])), "seats": self.number(rng.choice([2, 2, 3])),
            "stack": self.number(self.unit * rng.choice([1, 2, 3, 5])),
            "buyin": self.number(rng.choice([0, 1, 20, 999])), "late": self.number(self.late),
            "blinds": self.list_of(self.list_of(map(self.number, level.numbers())) for level in self.levels),
            "shares": self.list_of(map(self.number, shares)), **cap}

    # -- how it is spelled --

    def number(self, value):
        spelled = [str(value), str(value), f"{value:_}", f"+{value}", hex(value), oct(value), bin(value)]
        return self.rng.choice(spelled if value else spelled + ["-0"])

    def text(self, value):
        escaped = f"\\u{ord(value[0]):04x}{value[1:]}"
        return self.rng.choice([f'"{value}"', f"'{value}'", f'"""{value}"""', f"'''{value}'''", f'"{escaped}"',
                                f'"""\n{value}"""', f'"""\\\n   {value}"""'])

    def list_of(self, members):
        space = self.rng.choice(["", " ", " ", "\n  ", " # more\n"])
        behind = self.rng.choice(["", "", ","])
        return f"[{space}{f',{space}'.join(members)}{behind}{space}]"

    def statement(self, key, value):
        key = self.rng.choice([key, key, key, f'"{key}"', f"'{key}'"])
        return self.rng.choice(["", "", "  ", "\t"]) + key + self.rng.choice([" = ", " = ", "=", "\t=  "]) + value

    def add_others(self):
        """Keys that are ignored, and tables behind all."""
        for other in self.rng.sample(OTHERS, self.rng.randint(0, 4)):
            self.statements[other] = other
        self.tail.append(self.rng.choice(TAILS))

    def data(self):
        rng = self.rng
        statements = list(self.statements.values())
        if not self.keeps_order and rng.random() < 0.5:
            rng.shuffle(statements)
        lines = [line + rng.choice(["", "", " # game = 1"]) for line in statements + self.tail]
        for _ in range(rng.randint(0, 2)):
            lines.insert(rng.randrange(len(self.statements) + 1), rng.choice(["", "# a note", "  "]))
        text = "\n".join(lines) + rng.choice(["", "\n"])
        return text.replace("\n", rng.choice(["\n", "\n", "\r\n"])).encode()

    # -- what makes it wrong --

    def give(self, item, text):
        self.statements[item] = text

    def miss(self, item):
        self.statements.pop(item, None)

    def value(self, item, text):
        self.give(item, self.statement(item, text))

    def dotted(self, item):
        self.give(item, f"{item}.more = 1")

    def table(self, item):
        self.miss(item)
        self.tail.append(f"[{item}]\nmore = 1")

    def tables(self, item):
        """An element of an array of tables stands where a value should."""
        self.miss(item)
        self.tail.append(f"[[{item}]]\nmore = 1")

    def under(self, item):
        """A header makes this item and all behind it members of a table."""
        self.keeps_order = True
        self.give(item, f"[more_{item}]\n{self.statements[item]}")

    def above_levels(self):
        self.value("late", str(len(self.levels) + self.rng.choice([1, 2, 10])))

    def no_multiple(self):
        """The stack is no multiple of the unit of level `late`; the levels get one that is no 1."""
        self.value("blinds", "[[5, 10, 5], [10, 20, 10]]")
        self.value("late", "2")
        self.value("stack", self.rng.choice(["5", "15", "1001", "99"]))

    def twice(self, item):
        self.give(item, f"{self.statements.get(item, f'{item} = 1')}\n{item} = 1")

    def no_toml(self, text):
        self.statements["more"] = text

    def no_toml_tail(self, text):
        self.tail.append(text)


def ways_of_item(item):
    """All ways in which an item alone is made wrong, each as what is done to a maker. The cap alone may be missing."""
    kinds = KINDS + ("1",) if item == "game" else KINDS if item in ("blinds", "shares") else KINDS + ("[1]",)
    texts = dict.fromkeys((*kinds, *WRONG_VALUES[item]))
    hows = [PlanMaker.dotted, PlanMaker.table, PlanMaker.tables]
    if item == "limit":
        del texts["[]"]
    else:
        hows += [PlanMaker.miss, PlanMaker.under]
    ways = [lambda maker, text=text: maker.value(item, text) for text in texts]
    return ways + [lambda maker, how=how: how(maker, item) for how in hows]


def item_ways():
    """Each way to make the value of an item wrong or to leave it out, with the item."""
    return [(item, way) for item in ALL_ITEMS for way in ways_of_item(item)]


def statement_ways():
    """Each way to give a file a statement that makes it no TOML."""
    ways = [lambda maker, item=item: maker.twice(item) for item in ALL_ITEMS]
    return [("toml", way) for way in ways + [lambda maker, text=text: maker.no_toml(text) for text in NO_TOML]]


def wrong_ways():
    """Each way to make a plan wrong in one place, with the item that is wrong then."""
    tails = [("toml", lambda maker, text=text: maker.no_toml_tail(text)) for text in NO_TOML_TAILS]
    ends = 3 * [("late", PlanMaker.above_levels)] + 4 * [("stack", PlanMaker.no_multiple)]
    return statement_ways() + tails + item_ways() + ends


def no_utf_8(data, rng):
    """The bytes, with some that are no UTF-8 in a note of their own."""
    return data + b"\n# " + rng.choice(NO_UTF_8) + b"\n"
