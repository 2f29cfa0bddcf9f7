"""Entries of tables, drawn by a seed, and each one's form in scripts, in dumps and for LevelDB."""
import random

from beside import want, word


class Entry:
    """Holds an entry of a table. A delete has no value."""

    def __init__(self, key, sequence, value):
        self.key, self.sequence, self.value = key, sequence, value

    def order(self):
        return self.key, -self.sequence

    def line(self):
        """Returns the line of a dump, after the table's level and number."""
        end = "delete" if self.value is None else f"put {word(self.value)}"
        return f"{word(self.key)} {self.sequence} {end}\n"

    def write(self):
        """Returns the line that writes it, for LevelDB's driver and for a script."""
        return f"del {word(self.key)}" if self.value is None else f"put {word(self.key)} {word(self.value)}"


def lines_of(entries):
    return "".join(entry.line() for entry in sorted(entries, key=Entry.order))


def newest(entries):
    """Returns the newest entry of each key."""
    return list({entry.key: entry for entry in sorted(entries, key=lambda entry: entry.sequence)}.values())


def map_of(entries):
    """Returns what a database of these entries has."""
    return {word(entry.key): word(entry.value) for entry in newest(entries) if entry.value is not None}


def rows_of(entries):
    """Returns its pairs, by rising keys."""
    return sorted(map_of(entries).items(), key=lambda pair: pair[0].replace("-", ""))


def by_sequence(entries):
    written = sorted(entries, key=lambda entry: entry.sequence)
    want([entry.sequence for entry in written] == list(range(1, len(written) + 1)), "sequences are 1, 2, 3 ..")
    return written


def a_value(chance):
    return chance.randbytes(chance.choice([0, 1, 7, 20, 60, 100, 100, 300]))


def some_keys(chance, count):
    """Returns keys of several lengths and any bytes, many of which share prefixes, and the empty
    one."""
    fronts = [chance.randbytes(length) for length in (0, 1, 3, 10, 40)]
    ends = [chance.randbytes(chance.choice([0, 1, 2, 2, 8, 30])) for _ in range(count)]
    runs = [b"key" + b"%05d" % number for number in range(count // 3)]
    joined = {chance.choice(fronts) + end for end in ends} | {bytes([255] * length) for length in range(5)}
    return sorted({b"", *joined, *runs})


def some_entries(seed):
    """Returns some thousand entries: puts and deletes, several of some keys, some long values."""
    chance = random.Random(seed)
    keys = some_keys(chance, 2500)
    keys += chance.choices(keys, k=300) + chance.choices(keys[:40], k=200)
    chance.shuffle(keys)
    entries = []
    for sequence, key in enumerate(keys, 1):
        value = None if chance.random() < 0.1 else a_value(chance)
        if chance.random() < 0.01:
            value = chance.randbytes(chance.randrange(2000, 10_500))
        entries.append(Entry(key, sequence, value))
    return entries
