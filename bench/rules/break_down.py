"""A list in which 64 full tables become one."""
from rules.crowds import quick_act
from rules.lines import break_line


def break_down(maker):
    """64 tables of ten are filled, and become one with hands between, until the tournament is over."""
    for line in ["game holdem", "tables 64", "seats 10", "stack 1000", "buyin 1", "late 1", "blinds 100 200 100",
                 "shares 1000", "go"]:
        maker.put(line)
    for number in range(640):
        maker.put(f"enter p{number} {number % 64 + 1} {number // 64 + 1}")
    table = 0
    while not maker.book.is_over():
        tables = [each for each, count in maker.book.open_counts().items() if count > 1]
        table = next((each for each in tables if each > table), tables[0])
        maker.put(f"begin {table} {maker.a_deck()}")
        hand = maker.hand_at(table)
        make_moves(maker)
        while hand and not hand.is_over():
            maker.put(quick_act(maker, table, hand))
        maker.put(f"settle {table}")
        make_moves(maker)


def make_moves(maker):
    """Mostly all balances and breaks that are lawful, some of them while a hand is played at the table."""
    while maker.odds(90) and (line := lawful_move(maker)):
        maker.put(line)


def lawful_move(maker):
    """A lawful break of the last table, else a lawful balance, else None."""
    book = maker.book
    counts = book.open_counts()
    last = max(counts)
    if len(counts) > 1 and not book.is_playing(last) and book.fill_list(last):
        return break_line(last, *maker.right_draw(last))
    resting = [table for table in counts if counts[table] == max(counts.values()) and not book.is_playing(table)]
    if resting and maker.is_uneven():
        return f"balance {maker.rng.choice(resting)} {min(counts, key=counts.get)}"
    return None
