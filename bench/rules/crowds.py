"""Made lists with more players than a list of single events comes to: full tables, and halls of many tables."""
from rules.lines import blinds_line

MOST_LINES = 1200


def crowd(maker):
    """640 players or some fewer enter at 64 tables, some go out, and they and others want their seats."""
    short_plan(maker, 64)
    for number in range(640 - maker.rng.choice([0, 2, 4])):
        maker.put(f"enter p{number} {number % 64 + 1} {number // 64 + 1}")
    maker.put("enter q 1 1")
    for table in range(1, 11):
        maker.put(f"begin {table} {maker.a_deck()}")
        for line in 8 * [f"time {table}"] + [f"settle {table}", f"enter q {table} 2", f"enter q {table} 3"]:
            maker.put(line)
        for player in ("p1", "p64", "p128", *(player for player, _, _ in maker.book.busts[-2:])):
            maker.put(f"reenter {player} {table} {maker.rng.choice([1, 2, 3])}")
    maker.put("stop")


def short_plan(maker, tables):
    """A plan of tables of ten whose stacks are the small blind."""
    for line in ["game holdem", f"tables {tables}", "seats 10", "stack 100", "buyin 1", "late 1", "blinds 100 200 100",
                 "shares 1000", "go"]:
        maker.put(line)


def crowd_at_one_table(maker):
    """The first to act folds and others mostly call, and newcomers take the seats of those who are out, or these come
    back."""
    short_plan(maker, 1)
    book, returns = maker.book, maker.rng.choice([0, 20, 80])
    while book.times_entered() < 640:
        for seat in range(1, 11):
            if (1, seat) not in book.seats:
                maker.put(f"{who_comes(maker, returns)} 1 {seat}")
        maker.put(f"begin 1 {maker.a_deck()}")
        hand, is_first = maker.hand_at(1), True
        while (due := hand.due()) is not None:
            faces = hand.put[due] < hand.level
            folds = is_first or (faces and maker.odds(25))
            maker.put(f"act 1 {hand.names[due]} {'fold' if folds else 'call' if faces else 'check'}")
            is_first = False
        maker.put("settle 1")
    for seat in range(1, 11):
        maker.put(f"enter p{len(book.entries)} 1 {seat}")
        maker.put(f"reenter {maker.a_player()} 1 {seat}")


def who_comes(maker, returns):
    """Somebody who is out, or a newcomer."""
    book = maker.book
    if book.busts and maker.odds(returns):
        return f"reenter {maker.rng.choice(book.busts)[0]}"
    return f"enter p{len(book.entries)}"


def hall(maker):
    """Up to 64 tables are filled, and hands, balances and breaks make them fewer, with other events between."""
    hall_plan(maker)
    fill(maker)
    book, few = maker.book, some_tables(maker)
    while len(maker.lines) < MOST_LINES and not book.is_over() and not book.stopped:
        if maker.odds(6):
            few = some_tables(maker)
        maker.pick((30, lambda: whole_hand(maker, some_table(maker, few))),
                   (18 if maker.is_uneven() else 3, lambda: maker.put(maker.balance())),
                   (6, lambda: maker.put(maker.break_table())), (6, lambda: maker.put(maker.enter())),
                   (maker.how_often_back(), lambda: maker.put(maker.reenter())),
                   (12, lambda: maker.put(maker.natural())), (1, lambda: next_level(maker)),
                   (25 if book.has_race() else 0.5, lambda: maker.put(maker.race())),
                   (2 if len(book.open_tables()) < 9 else 0.2, lambda: a_round(maker)),
                   (6 if book.hand_for_hand else 0, lambda: maker.put("hands off")))()
    for _ in range(5):
        maker.put(maker.natural())


def hall_plan(maker):
    """Many tables, and stacks of a few blinds, so that many players go out."""
    rng = maker.rng
    blinds = maker.levels(rng.choice([5, 25, 100]))
    late = rng.randint(1, len(blinds))
    stack = blinds[late - 1].unit * rng.choice([1, 2, 3, 5, 10, 20, 40])
    buy_in = rng.choice([0, 1, 10, 1000000000])
    for line in [f"game {rng.choice(['holdem', 'omaha', 'hilo'])}", f"tables {rng.choice([3, 5, 8, 16, 33, 64, 64])}",
                 f"seats {rng.randint(2, 10)}", f"stack {stack}", f"buyin {buy_in}", f"late {late}",
                 *map(blinds_line, blinds), maker.shares(), *maker.caps(), "go"]:
        maker.put(line)


def fill(maker):
    """Players enter by the fewest; tables break before the first hand, and are opened again by others."""
    book, rng = maker.book, maker.rng
    room = len(book.tables) * book.plan["seats"]
    wanted = min(room, rng.choice([2, 3, 4]) * len(book.tables), rng.randint(20, 200))
    while len(book.seats) < wanted:
        maker.put(maker.enter())
        if maker.odds(4):
            maker.put(maker.break_table())


def some_tables(maker):
    """A few of the open tables, where hands are played now."""
    tables = maker.book.open_tables()
    return maker.rng.sample(tables, min(len(tables), maker.rng.randint(1, 4)))


def some_table(maker, few):
    """Mostly one of a few tables, now and then another, or one with the fewest players, which may be halted."""
    counts = maker.book.open_counts()
    return maker.rng.choice(maker.pick((6, few), (2, list(counts)), (1, [min(counts, key=counts.get)])))


def whole_hand(maker, table):
    """A hand that is mostly played to its end, where one may begin."""
    maker.put(f"begin {table} {maker.a_row()}")
    hand = maker.hand_at(table)
    while hand and not hand.is_over() and not maker.odds(1):
        maker.put(quick_act(maker, table, hand))
    if hand and hand.is_over() and not maker.odds(4):
        maker.put(f"settle {table}")


def next_level(maker):
    """The next level, and most of the races that are pending then, in any order."""
    maker.put("level")
    racing = [table for table in maker.book.tables if maker.book.tables[table].pending]
    maker.rng.shuffle(racing)
    for table in racing:
        if maker.odds(90):
            maker.put(f"race {table} {maker.a_row()}")


def a_round(maker):
    """Hand for hand: hands at the tables where none has begun, and mostly the end of the round."""
    book = maker.book
    if not book.hand_for_hand:
        maker.put("hands on")
    tables = [table for table in book.open_tables() if table not in book.round or maker.odds(10)]
    maker.rng.shuffle(tables)
    for table in tables[:9]:
        whole_hand(maker, table)
        if maker.odds(15):
            maker.put(maker.pick((1, maker.balance), (1, maker.break_table), (1, lambda: "round"))())
    maker.put(maker.pick((40, "round"), (55, "hands off"), (5, "hands on")))


def quick_act(maker, table, hand):
    """Mostly a fold, or an act that puts in all chips or as many as the pot allows."""
    due = hand.due()
    faces = hand.put[due] < hand.level
    most = "allin"
    if hand.is_past_bound(due, hand.put[due] + hand.behind(due)) and maker.odds(95):
        bound = hand.bound(due)
        most = "call" if bound == hand.level else f"{'raise' if hand.level else 'bet'} {bound}"
    act = maker.pick((35, "fold" if faces else "check"), (25, "call" if faces else "check"), (30, most), (10, None))
    return f"act {table} {hand.names[due]} {act}" if act else f"time {table}"
