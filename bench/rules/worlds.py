"""Lists that agree for a player: a deck has other cards where none is told to that player by the end of the list."""
from dataclasses import dataclass

from rules.cards import text_of
from rules.lines import lines_of
from rules.views import shown_places


@dataclass
class World:
    """A list beside another: in how many hands the deck is another, and in how many of them a player's cards are, or
    those of the board."""

    text: bytes
    decks: int = 0
    hands: int = 0
    boards: int = 0


def other_deck(hand, player, rng):
    """The cards at the places that the player is not told of, in any order."""
    hidden = sorted(set(range(52)) - shown_places(hand, player))
    deck = list(hand.deck)
    for place, other in zip(hidden, rng.sample(hidden, len(hidden))):
        deck[place] = hand.deck[other]
    return deck


def other_world(view, lines, player, rng):
    """A list that agrees with one for a player, or for nobody; each of its hands has another deck where it may."""
    lines, world = list(lines), World(b"")
    for begun in view.begun:
        hand, deck = begun.hand, other_deck(begun.hand, player, rng)
        _, table, _ = lines[begun.number].split()
        lines[begun.number] = b"begin " + table + b" " + text_of(deck).encode()
        changed = {place for place in range(52) if deck[place] != hand.deck[place]}
        world.decks += bool(changed)
        world.hands += any(changed.intersection(places) for places in hand.hole_places().values())
        world.boards += bool(changed.intersection(hand.board_places()))
    world.text = b"".join(line + b"\n" for line in lines)
    return world
