"""Damages of a table whose checksums are made to fit. Blocks stand in each other's place, keys out
of their block's place, and a table's ends have other keys than its edit says. No checksum finds
one, and nobody wrote such a table."""
import struct
from dataclasses import dataclass

from files import masked

FOOTER = 48
TRAILER = 5


@dataclass(frozen=True)
class Entry:
    """Holds an entry of a block: its key and the place of the bytes that it doesn't share, its
    value and that one's place."""

    key: bytes
    own: range
    value: bytes
    place: int


def number_at(text, place):
    """Returns a number from bytes of seven bits, and where the rest begins."""
    found, shift = 0, 0
    while text[place] >= 128:
        found |= (text[place] & 127) << shift
        shift, place = shift + 7, place + 1
    return found | text[place] << shift, place + 1


def handle_at(text, place):
    """Returns where a block lies, and how long it is."""
    offset, place = number_at(text, place)
    length, _ = number_at(text, place)
    return offset, length


def entries_of(text, handle):
    """Returns the entries of the block that lies there."""
    offset, length = handle
    restarts = struct.unpack_from("<I", text, offset + length - 4)[0]
    place, end, key, found = offset, offset + length - 4 * (restarts + 1), b"", []
    while place < end:
        shared, place = number_at(text, place)
        own, place = number_at(text, place)
        value, place = number_at(text, place)
        key = key[:shared] + text[place : place + own]
        found.append(Entry(key, range(place, place + own), text[place + own : place + own + value], place + own))
        place += own + value
    return found


def index_of(text):
    """Returns the handle of the index, and its entries: the last key of a block or one after it,
    and the block's handle."""
    _, behind = number_at(text, number_at(text, len(text) - FOOTER)[1])
    handle = handle_at(text, behind)
    return handle, entries_of(text, handle)


def fitting(text, handle):
    """Returns the table with the checksum that the block there must have."""
    offset, length = handle
    return replaced(text, offset + length + 1, masked(text[offset : offset + length + 1]))


def replaced(text, place, some):
    return text[:place] + some + text[place + len(some) :]


def pair_of(chance, found, size):
    """Returns two of them that are of one size, if there are any."""
    pairs = [(a, b) for a in found for b in found if a != b and size(a) == size(b)]
    return chance.choice(pairs) if pairs else None


def exchanged(chance, text):
    """Exchanges two blocks."""
    pair = pair_of(chance, [handle_at(it.value, 0) for it in index_of(text)[1]], lambda it: it[1])
    if not pair:
        return text
    (first, length), (second, _) = pair
    both = [text[it : it + length + TRAILER] for it in (first, second)]
    return replaced(replaced(text, first, both[1]), second, both[0])


def doubled(chance, text):
    """Puts a block in another one's place, too."""
    pair = pair_of(chance, [handle_at(it.value, 0) for it in index_of(text)[1]], lambda it: it[1])
    return replaced(text, pair[1][0], text[pair[0][0] : sum(pair[0]) + TRAILER]) if pair else text


def repointed(chance, text):
    """Makes the index lead to one block by the keys of another."""
    handle, index = index_of(text)
    pair = pair_of(chance, index, lambda it: len(it.value))
    return fitting(replaced(text, pair[1].place, pair[0].value), handle) if pair else text


def misplaced(chance, text):
    """Makes a key of a block no key, or one that doesn't belong there."""
    index = index_of(text)[1]
    for _ in range(100):
        at = chance.randrange(len(index))
        handle = handle_at(index[at].value, 0)
        entry = chance.choice(entries_of(text, handle))
        place = chance.choice(entry.own)
        found = replaced(text, place, bytes([chance.randrange(256)]))
        if not is_in_place(found, handle, index[at - 1].key if at else None, index[at].key):
            return fitting(found, handle)
    return text


def ended(chance, text):
    """Changes the first or the last key of a table into one that fits the index."""
    index = index_of(text)[1]
    for _ in range(100):
        last = chance.choice((False, True))
        at = len(index) - 1 if last else 0
        handle = handle_at(index[at].value, 0)
        entry = entries_of(text, handle)[-1 if last else 0]
        place = chance.choice(entry.own)
        found = replaced(text, place, bytes([chance.randrange(256)]))
        if found != text and is_in_place(found, handle, index[at - 1].key if at else None, index[at].key):
            return fitting(found, handle)
    return text


def is_in_place(text, handle, bound, last):
    """Says whether the keys of a block are internal keys that rise, above the previous block's
    bound and up to this block's own."""
    keys = [*([bound] if bound is not None else []), *[it.key for it in entries_of(text, handle)]]
    if any(len(it) < 8 or it[-8] > 1 for it in keys):
        return False
    ranks = [rank(it) for it in keys]
    return all(a < b for a, b in zip(ranks, ranks[1:])) and ranks[-1] <= rank(last)


def rank(key):
    """Orders internal keys: by the user key, and the newest first."""
    return key[:-8], -int.from_bytes(key[-8:], "little")


FITTED = (exchanged, doubled, repointed, misplaced, misplaced, misplaced, ended)
