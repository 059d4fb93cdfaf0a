"""Draws from a seed: the words of ChaCha with 20 rounds, and the shuffle of `rand` over them."""
import itertools
import struct

from rules.cards import SORTED_DECK

# The kinds of a draw: a deck, the seats and the players of a break, and what a simulated player does.
DECK, SEATS, PLAYERS, ACT = range(4)

ALL_WORDS = 1 << 32
CONSTANTS = struct.unpack("<4I", b"expand 32-byte k")

# A row of four words is one number: each word stands in the lower half of a lane of 64 bits.
LANES = (0, 64, 128, 192)


def row_of(words):
    return sum(word << lane for word, lane in zip(words, LANES))


ROW = row_of(4 * [ALL_WORDS - 1])


def words_in(row):
    return [row >> lane & ALL_WORDS - 1 for lane in LANES]


def rotated(row, bits):
    """A row whose words are each rotated to the left."""
    return (row << bits | row >> 32 - bits) & ROW


def turned(row, columns):
    """A row whose words each come from so many columns further, round and round."""
    return (row >> 64 * columns | row << 64 * (4 - columns)) & ROW


def quarter_rounds(a, b, c, d):
    """The quarter round in each column of four rows."""
    a = a + b & ROW
    d = rotated(d ^ a, 16)
    c = c + d & ROW
    b = rotated(b ^ c, 12)
    a = a + b & ROW
    d = rotated(d ^ a, 8)
    c = c + d & ROW
    b = rotated(b ^ c, 7)
    return a, b, c, d


def block(key, counter):
    """The 16 words of a block: ten times a round of the columns and one of the diagonals, and what it began with. The
    number of the stream, which stands behind the counter, is 0."""
    first = [row_of(row) for row in (CONSTANTS, key[:4], key[4:], (counter % ALL_WORDS, counter // ALL_WORDS))]
    a, b, c, d = first
    for _ in range(10):
        a, b, c, d = quarter_rounds(a, b, c, d)
        a, b, c, d = quarter_rounds(a, turned(b, 1), turned(c, 2), turned(d, 3))
        b, c, d = turned(b, 3), turned(c, 2), turned(d, 1)
    return [word for row, begun in zip((a, b, c, d), first) for word in words_in(row + begun & ROW)]


def words_from(key_bytes):
    """The words that the generator made from 32 bytes gives, one after another."""
    key = struct.unpack("<8I", key_bytes)
    for counter in itertools.count():
        yield from block(key, counter)


def words_of(seed, kind, number):
    """The words of a draw: its generator is made from the first 16 bytes of the seed, the number and the kind."""
    return words_from(seed[:16] + number.to_bytes(8, "little") + kind.to_bytes(8, "little"))


def number_below(bound, words):
    """A word is a fraction, and a bound times it is a number and a fraction again; where a further word could carry
    into the number, it does so or not."""
    number, fraction = divmod(next(words) * bound, ALL_WORDS)
    if fraction > ALL_WORDS - bound:
        number += fraction + next(words) * bound // ALL_WORDS >= ALL_WORDS
    return number


def indices(words):
    """0, an index below 2, one below 3 and so on. One number serves as many of them as have a product of their bounds
    that is a word: each takes the remainder by its bound, and the last takes all that is left."""
    yield 0
    bound = 2
    while True:
        product, behind = bound, bound + 1
        while product * behind < ALL_WORDS:
            product *= behind
            behind += 1
        left = number_below(product, words)
        while bound < behind - 1:
            left, index = divmod(left, bound)
            yield index
            bound += 1
        yield left
        bound += 1


def shuffled(items, words):
    """Each item in turn is exchanged with one that is not behind it."""
    items = list(items)
    for place, index in zip(range(len(items)), indices(words)):
        items[place], items[index] = items[index], items[place]
    return items


def deck_of(seed, number):
    """The deck of a draw: that in order, shuffled."""
    return shuffled(SORTED_DECK, words_of(seed, DECK, number))


def draw_of(seed, number, fill, names):
    """The draw of a break: the seats to fill and the players in rising seat, shuffled by two generators."""
    return shuffled(fill, words_of(seed, SEATS, number)), shuffled(names, words_of(seed, PLAYERS, number))


def act_number(seed, number):
    """The number by which a simulated player acts, 0 to 9."""
    return next(words_of(seed, ACT, number)) % 10


def seed_of(number):
    """The seed of a simulation's number: eight bytes, the least first, and 24 zero bytes."""
    return number.to_bytes(8, "little") + bytes(24)
