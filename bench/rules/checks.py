"""The checks of the events: what each number says, and their order for each event."""
from rules.plan import ALL_ITEMS, wrong_item

MOST_ENTRIES = 640

NAMES = {
    1: "Syntax", 2: "NoPlan", 3: "PlanLate", 4: "PlanWrong", 5: "Stopped", 6: "NameKnown", 7: "NameUnknown",
    8: "NoTable", 9: "NoSeat", 10: "SeatTaken", 11: "NotFewest", 12: "LateClosed", 13: "Playing", 14: "NotPlaying",
    15: "Lone", 16: "Halted", 17: "RaceDue", 18: "RoundDone", 19: "DeckWrong", 20: "NotDealt", 21: "NotTurn",
    22: "HandOver", 23: "NotOver", 24: "CheckFacing", 25: "NothingToCall", 26: "BetFacing", 27: "NothingToRaise",
    28: "TooSmall", 29: "PastStack", 30: "PastPot", 31: "NotReopened", 32: "NotUnit", 33: "NotFullest",
    34: "NotShortest", 35: "EvenEnough", 36: "NotNextToBreak", 37: "NoRoom", 38: "DrawWrong", 39: "LastLevel",
    40: "RoundOpen", 41: "SwitchWrong", 42: "NoRace", 43: "Over", 44: "ListFull", 45: "StillIn",
}


def is_closed_table(tournament, event):
    """8: which tables an event may name."""
    if event.word in ("act", "time", "settle"):
        return not tournament.is_table(event.args[0])
    if event.word in ("enter", "reenter"):
        return event.args[1] not in tournament.counts_to_enter()
    named = event.args[:2] if event.word == "balance" else event.args[:1]
    return not all(tournament.is_open(table) for table in named)


def is_name_unknown(tournament, event):
    """7: the name is not in the entry list."""
    name = event.args[1] if event.word == "act" else event.args[0]
    return name not in tournament.entries


def is_not_fewest(tournament, event):
    """11: another table that could be entered has a lower count."""
    _, table, _ = event.args
    counts = tournament.counts_to_enter()
    return min(counts.values()) < counts[table]


def is_race_due(tournament, event):
    """17: at `begin` at this table, and else at any."""
    if event.word == "begin":
        return tournament.tables[event.args[0]].pending is not None
    return tournament.has_race()


def repeats_a_card(tournament, event):
    return len(set(event.args[1])) < 52


def is_other_due(tournament, event):
    """21: somebody is due, and it is another player."""
    table, player, _ = event.args
    hand = tournament.tables[table].hand
    return hand.due() is not None and hand.due() != hand.seat_of(player)


def is_not_dealt(tournament, event):
    table, player, _ = event.args
    return player not in tournament.tables[table].dealt.values()


def is_draw_wrong(tournament, event):
    """38: the places are no permutation of the fill list, or the names none of the table's players."""
    table, places, names = event.args
    return (sorted(places) != sorted(tournament.fill_list(table))
            or sorted(names) != sorted(tournament.players_at(table).values()))


def is_short_of_room(tournament, event):
    """37: the other open tables have fewer empty seats than the table has players."""
    table, seats = event.args[0], tournament.plan["seats"]
    empty = sum(seats - count for other, count in tournament.open_counts().items() if other != table)
    return empty < tournament.count(table)


def is_round_open(tournament, event):
    """40: what must be done before, while hand-for-hand is on."""
    if not tournament.hand_for_hand:
        return False
    if event.word in ("balance", "break"):
        return bool(tournament.round)
    if event.word == "hands":
        return event.args[0] == "off" and bool(tournament.playing_tables())
    to_play = [table for table, count in tournament.open_counts().items()
               if count >= 2 and not tournament.is_halted(table) and table not in tournament.round]
    return bool(tournament.playing_tables()) or bool(to_play)


def is_switch_wrong(tournament, event):
    """41: `hands on` while it is on, `hands off` and `round` while it is off."""
    return tournament.hand_for_hand == (event.args == ("on",))


def is_refused_with(number):
    """24 to 32: the lowest refusal of the act, by the player who is due."""
    def condition(tournament, event):
        table, player, act = event.args
        hand = tournament.tables[table].hand
        return hand.refusal(hand.seat_of(player), act) == number
    return condition


def first_table(tournament, event):
    return tournament.tables[event.args[0]]


CONDITIONS = {
    2: lambda t, e: t.level == 0,
    3: lambda t, e: t.level > 0,
    4: lambda t, e: wrong_item(t, e) is not None,
    5: lambda t, e: t.stopped,
    6: lambda t, e: e.args[0] in t.entries,
    7: is_name_unknown,
    8: is_closed_table,
    9: lambda t, e: not 1 <= e.args[2] <= t.plan["seats"],
    10: lambda t, e: e.args[1:] in t.seats,
    11: is_not_fewest,
    12: lambda t, e: t.level > t.plan["late"],
    13: lambda t, e: t.is_playing(e.args[0]),
    14: lambda t, e: not t.is_playing(e.args[0]),
    15: lambda t, e: t.count(e.args[0]) == 1,
    16: lambda t, e: t.is_halted(e.args[0]),
    17: is_race_due,
    18: lambda t, e: t.hand_for_hand and e.args[0] in t.round,
    19: repeats_a_card,
    20: is_not_dealt,
    21: is_other_due,
    22: lambda t, e: first_table(t, e).hand.is_over(),
    23: lambda t, e: not first_table(t, e).hand.is_over(),
    33: lambda t, e: t.count(e.args[0]) < max(t.open_counts().values()),
    34: lambda t, e: t.count(e.args[1]) > min(t.open_counts().values()),
    35: lambda t, e: abs(t.count(e.args[0]) - t.count(e.args[1])) < 2,
    36: lambda t, e: max(t.open_tables()) > e.args[0],
    37: is_short_of_room,
    38: is_draw_wrong,
    39: lambda t, e: t.level == len(t.blinds),
    40: is_round_open,
    41: is_switch_wrong,
    42: lambda t, e: first_table(t, e).pending is None,
    43: lambda t, e: t.is_over(),
    44: lambda t, e: t.times_entered() == MOST_ENTRIES,
    45: lambda t, e: t.place_of(e.args[0]) is not None,
}

BETTING = [24, 25, 26, 27, 28, 29, 30, 31, 32]
CONDITIONS |= {number: is_refused_with(number) for number in BETTING}

# The checks of each event, in the order in which they are made.
CHECKS = {word: [3, 4] for word in ALL_ITEMS + ("go",)} | {
    "enter": [2, 5, 6, 8, 9, 10, 11, 12, 43, 44],
    "reenter": [2, 5, 7, 8, 9, 10, 11, 12, 43, 44, 45],
    "begin": [2, 5, 8, 13, 15, 16, 17, 18, 19],
    "act": [2, 5, 7, 8, 14, 20, 21, 22, *BETTING],
    "time": [2, 5, 8, 14, 22],
    "settle": [2, 5, 8, 14, 23],
    "balance": [2, 5, 8, 13, 17, 33, 34, 35, 40],
    "break": [2, 5, 8, 13, 17, 36, 37, 38, 40],
    "level": [2, 5, 17, 39, 43],
    "race": [2, 5, 8, 13, 19, 42, 43],
    "hands": [2, 5, 40, 41, 43],
    "round": [2, 5, 40, 41, 43],
    "stop": [2, 5],
}


def refusal(tournament, event):
    """The number of the first check of an event that holds, or None."""
    return next((number for number in CHECKS[event.word] if CONDITIONS[number](tournament, event)), None)
