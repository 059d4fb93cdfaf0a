"""What is wrong with a line of the plan, and with the plan at its end."""

PLAN_ITEMS = ("game", "tables", "seats", "stack", "buyin", "late", "blinds", "shares")
# The cap of fixed limit may be missing, and comes behind them.
ALL_ITEMS = PLAN_ITEMS + ("limit",)
GREATEST_AMOUNT = 1_000_000_000
BOUNDS = {"tables": (1, 64), "seats": (2, 10), "stack": (1, GREATEST_AMOUNT), "buyin": (0, GREATEST_AMOUNT),
          "late": (1, 40), "limit": (1, 9)}


def wrong_item(tournament, event):
    """The item that makes a line or the plan wrong, or None."""
    if event.word == "go":
        return wrong_at_go(tournament)
    return event.word if is_wrong_line(tournament, event) else None


def wrong_at_go(tournament):
    """The first missing item; else `late` where there is no such level, `stack` where it is no multiple there."""
    plan, blinds = tournament.plan, tournament.blinds
    for item in PLAN_ITEMS:
        if not (blinds if item == "blinds" else item in plan):
            return item
    if plan["late"] > len(blinds):
        return "late"
    return "stack" if plan["stack"] % blinds[plan["late"] - 1].unit else None


def is_wrong_line(tournament, event):
    """What was given before by an accepted line, blinds 40 times, or what is out of bounds."""
    word, args = event.word, event.args
    if word == "blinds":
        return len(tournament.blinds) == 40 or are_wrong_blinds(tournament.blinds, args)
    if word in tournament.plan:
        return True
    if word == "shares":
        return are_wrong_shares(args)
    least, most = BOUNDS.get(word, (None, None))
    return least is not None and not least <= args[0] <= most


def are_wrong_blinds(before, blinds):
    """Blinds and ante are multiples of the unit, which is that of the level before times one of the numbers 1 to 6."""
    small, big, unit, ante = blinds
    if unit < 1 or not 1 <= small <= big <= GREATEST_AMOUNT or ante > GREATEST_AMOUNT:
        return True
    if small % unit or big % unit or ante % unit:
        return True
    return bool(before) and unit not in [before[-1].unit * times for times in range(1, 7)]


def are_wrong_shares(shares):
    """Shares are thousandths, each at most the one before it, and at most 1000 together."""
    falling = all(later <= earlier for earlier, later in zip(shares, shares[1:]))
    return not all(1 <= share <= 1000 for share in shares) or not falling or sum(shares) > 1000
