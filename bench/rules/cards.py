"""Cards, the values of hands, pots and awards by the rules, written apart from the code of the crates."""
from collections import Counter
from functools import lru_cache
from itertools import combinations

RANKS = "23456789TJQKA"
SUITS = "cdhs"
SORTED_DECK = [(rank, suit) for rank in range(2, 15) for suit in range(4)]


def card_of(text):
    """A card is its rank, 2 to 14, and the place of its suit in `cdhs`."""
    return RANKS.index(text[0]) + 2, SUITS.index(text[1])


def cards_of(text):
    """Cards are written with nothing between them, or with spaces."""
    text = text.replace(" ", "")
    return [card_of(text[place:place + 2]) for place in range(0, len(text), 2)]


def text_of(cards):
    return "".join(RANKS[rank - 2] + SUITS[suit] for rank, suit in cards)


def seats_clockwise(after, seats):
    """All seats from the one after a seat on, clockwise; that seat itself comes last."""
    return [(after + step - 1) % seats + 1 for step in range(1, seats + 1)]


def five_card_value(cards):
    """The category and then the ranks, those that occur more often first and higher ones first among these."""
    counts = Counter(rank for rank, _ in cards)
    ranks = sorted(counts, key=lambda rank: (-counts[rank], -rank))
    one_suit = len({suit for _, suit in cards}) == 1
    top = top_of_a_run(ranks)
    if top and one_suit:
        return [8, top]
    if top:
        return [4, top]
    return [category_of_counts(sorted(counts.values(), reverse=True), one_suit)] + ranks


def top_of_a_run(ranks):
    """Five ranks run where the greatest less the least is 4; 5-4-3-2-A runs with the top 5."""
    if len(ranks) < 5:
        return None
    if max(ranks) - min(ranks) == 4:
        return max(ranks)
    return 5 if sorted(ranks) == [2, 3, 4, 5, 14] else None


def category_of_counts(counts, one_suit):
    categories = {(4, 1): 7, (3, 2): 6, (3, 1, 1): 3, (2, 2, 1): 2, (2, 1, 1, 1): 1}
    return categories.get(tuple(counts), 5 if one_suit else 0)


def choices_of_five(game, hole, board):
    """In hold'em any five of all seven cards; else two hole cards with three board cards."""
    if game == "holdem":
        return combinations(hole + board, 5)
    return (two + three for two in combinations(hole, 2) for three in combinations(board, 3))


def best_high(game, hole, board):
    return greatest_value(game, tuple(hole), tuple(board))


@lru_cache(maxsize=4096)
def greatest_value(game, hole, board):
    """The greatest value over all choices, kept for who asks again: a hand that is tabled is told and then settled."""
    return max(five_card_value(list(five)) for five in choices_of_five(game, hole, board))


def best_low(hole, board):
    """The least of the lists of five different ranks of eight or lower, the ace as 1, in falling order; or none."""
    lows = []
    for five in choices_of_five("hilo", hole, board):
        ranks = sorted({1 if rank == 14 else rank for rank, _ in five}, reverse=True)
        if len(ranks) == 5 and ranks[0] <= 8:
            lows.append(ranks)
    return min(lows, default=None)


def pots_of(put, live, ante=0):
    """The pots, as pairs of an amount and the eligible seats, cut at each height that somebody put in.

    A height of one chip is paid by all who put in so much, and the live ones among them are eligible for it. Heights
    with the same eligible seats form one pot, and a height without any joins the pot below. The ante is in the first.
    """
    pots = []
    below = 0
    for height in sorted({amount for amount in put.values() if amount > 0}):
        payers = [seat for seat in put if put[seat] >= height]
        eligible = [seat for seat in payers if seat in live]
        amount = (height - below) * len(payers)
        if pots and (not eligible or pots[-1][1] == eligible):
            pots[-1] = (pots[-1][0] + amount, pots[-1][1])
        else:
            pots.append((amount, eligible))
        below = height
    (amount, eligible), *others = pots
    return [(amount + ante, eligible), *others]


def shares_of(amount, unit, winners):
    """Cuts an amount into units: each winner gets the quotient, and the units that are left go to the first ones."""
    each, left = divmod(amount // unit, len(winners))
    return {seat: (each + (place < left)) * unit for place, seat in enumerate(winners)}


def halves_of(amount, unit):
    """The high half is the greater half in units, the low half is the rest."""
    units = amount // unit
    return (units - units // 2) * unit, units // 2 * unit


def award_of_pot(game, amount, unit, eligible, hole, board):
    """What each of the eligible seats, in the order from the button's left, gets of a pot."""
    values = {seat: best_high(game, hole[seat], board) for seat in eligible}
    high = [seat for seat in eligible if values[seat] == max(values.values())]
    lows = {seat: best_low(hole[seat], board) for seat in eligible} if game == "hilo" else {}
    least = min((low for low in lows.values() if low), default=None)
    low = [seat for seat in eligible if least and lows[seat] == least]
    if not low or low == high:
        return shares_of(amount, unit, high)
    upper, lower = halves_of(amount, unit)
    award = Counter(shares_of(upper, unit, high))
    award.update(shares_of(lower, unit, low))
    return award


def awards_of(game, put, ante, live, unit, button, seats, hole, board):
    """What each seat is awarded of all pots at a showdown."""
    awards = Counter()
    for amount, eligible in pots_of(put, live, ante):
        in_order = [seat for seat in seats_clockwise(button, seats) if seat in eligible]
        awards.update(award_of_pot(game, amount, unit, in_order, hole, board))
    return awards
