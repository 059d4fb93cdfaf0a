"""Places and prizes, found from the whole list of those who are out."""


def place_in(tournament, bust):
    """1 and how many are in, are in a later group, or are in his group with a greater stack."""
    _, stack, group = bust
    ahead = [other for other in tournament.busts if other[2] > group or (other[2] == group and other[1] > stack)]
    return 1 + len(tournament.seats) + len(ahead)


def prizes_of(entries, reentries, buy_in, shares):
    """The prize of each place, up to the number of entries and of shares; what is left goes to the first, too. Entries
    and re-entries pay."""
    pool = (entries + reentries) * buy_in
    prizes = [pool * share // 1000 for share in shares[:entries]]
    prizes[0] += pool - sum(prizes)
    return prizes + [0] * (entries - len(prizes))


def standings_of(tournament):
    """The place, the name and the prize of each who is out, and of the winner, by place and then by entry."""
    places = {bust[0]: place_in(tournament, bust) for bust in tournament.busts}
    if tournament.is_over():
        places[next(iter(tournament.seats.values()))] = 1
    if not places:
        return []
    plan = tournament.plan
    prizes = prizes_of(len(tournament.entries), tournament.reentries, plan["buyin"], plan["shares"])
    standings = []
    for rank in sorted(set(places.values())):
        tied = [player for player in tournament.entries if places.get(player) == rank]
        each, left = divmod(sum(prizes[rank - 1:rank - 1 + len(tied)]), len(tied))
        standings += [(rank, player, each + (turn < left)) for turn, player in enumerate(tied)]
    return standings
