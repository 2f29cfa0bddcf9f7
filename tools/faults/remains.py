"""What may be left of a folder after a crash of the program and after a power loss, rebuilt from a
recording of the calls on it (recorded.py).

A crash leaves what the calls so far have done. One in the middle of a write leaves any number of
its bytes. After a power loss this is assumed, which ext4 breaks in its last point
(docs/GUARANTEES.md, section 5):

- A synced file keeps what it held then, and a synced folder keeps its names as they were then.
- After that, names reach the disk in the order of the calls that changed them.
- Each file has a prefix of what it held, with the synced part at least.
- Nothing else stands in a file: no byte that was never written to it. zeroed_losses gives that up,
  as ext4 does: a file may end in zeros where bytes stood that weren't synced.
"""
from dataclasses import dataclass, field, replace

from listed import Wrong
from recorded import Moved, Opened, Removed, Synced, Wrote

# LevelDB's text about what it does, which nobody reads
UNREAD = ("LOG", "LOG.old")


class File:
    """Holds what a file has since the open that made or emptied it; since then bytes are only
    added."""

    def __init__(self, text=b""):
        self.text = bytearray(text)
        self.ends = [0, len(text)]


@dataclass(frozen=True)
class Moment:
    """Holds a folder between two calls: each name with its file, how many bytes each file had and
    how many of them were synced, and when the folder was synced last."""

    names: dict
    lengths: dict
    synced: dict
    names_synced: int


class History:
    """Holds the folder at each moment of a recording: before its first call, and after each.
    `written` has the file of each write, by its call's place among the calls. `keeps_names` says
    that a sync of any file keeps all names too, as a journal does."""

    def __init__(self, recording, calls, keeps_names=False):
        self.folder, self.calls, self.keeps_names = recording.inode, calls, keeps_names
        self.by_inode, self.written, names = {}, {}, {}
        for name, (inode, text) in recording.start.items():
            self.by_inode[inode] = names[name] = File(text)
        lengths = {file: len(file.text) for file in names.values()}
        self.moments = [Moment(names, lengths, lengths, 0)]
        for call in self.calls:
            self.moments.append(self.behind(self.moments[-1], call))

    def behind(self, now, call):
        made = {Opened: self.opened, Wrote: self.wrote, Moved: self.moved, Removed: self.removed, Synced: self.was_synced}
        return made[type(call)](now, call) if type(call) in made else now

    def opened(self, now, call):
        old = now.names.get(call.name)
        if call.name in UNREAD or old and not (call.empties and now.lengths[old]):
            return now
        file = self.by_inode[call.file] = File()
        return replace(now, names={**now.names, call.name: file}, lengths={**now.lengths, file: 0}, synced={**now.synced, file: 0})

    def wrote(self, now, call):
        file = self.by_inode.get(call.file)
        if file is None or call.place != now.lengths[file]:
            raise Wrong(f"{len(call.text)} bytes were written at {call.place} of a file that doesn't end there")
        file.text += call.text
        file.ends.append(len(file.text))
        # (an inode may be used again)
        self.written[len(self.moments) - 1] = file
        return replace(now, lengths={**now.lengths, file: len(file.text)})

    def moved(self, now, call):
        names = dict(now.names)
        if call.old in names:
            names[call.new] = names.pop(call.old)
        return replace(now, names=names)

    def removed(self, now, call):
        return replace(now, names={name: file for name, file in now.names.items() if name != call.name})

    def was_synced(self, now, call):
        if call.file == self.folder or self.keeps_names:
            now = replace(now, names_synced=len(self.moments))
        file = self.by_inode.get(call.file)
        return replace(now, synced={**now.synced, file: now.lengths[file]}) if file else now

    def want_end(self, found):
        """Checks that what was rebuilt is what stands in the folder: no call was overlooked."""
        wanted = {name: text for name, (_, text) in found.items() if name not in UNREAD}
        if holding(self.moments[-1].names, self.moments[-1].lengths) != wanted:
            raise Wrong("the record doesn't lead to what stands in the folder")


def holding(names, lengths):
    """Returns the bytes of each name."""
    return {name: bytes(file.text[: lengths[file]]) for name, file in names.items()}


@dataclass(frozen=True)
class Remains:
    """Holds what is left: the files, after which call, each name with its file and that one's
    length, how it came about, and how many zeros stand behind each file."""

    moment: int
    names: dict
    lengths: dict
    way: str
    zeros: dict = field(default_factory=dict)

    @property
    def files(self):
        found = holding(self.names, self.lengths)
        return {name: text + bytes(self.zeros.get(self.names[name], 0)) for name, text in found.items()}


# ---- crashes


def stops(history, chance):
    """Returns what a crash leaves: at each moment, and in the middle of each write after some of
    its bytes."""
    for number, now in enumerate(history.moments):
        yield Remains(number, now.names, now.lengths, f"a stop behind call {number}")
        file = history.written.get(number)
        if file:
            for count in cuts(len(history.calls[number].text), chance):
                yield Remains(number, now.names, {**now.lengths, file: now.lengths[file] + count}, f"a stop {count} bytes into call {number + 1}")


def cuts(length, chance):
    """Returns numbers of bytes at which a write of this length is cut, some of it done and some
    not."""
    some = {1, length // 2, length - 1, *(chance.randrange(length) for _ in range(2))}
    return sorted(it for it in some if 0 < it < length)


# ---- power losses


def names_in_order(history, number):
    """Returns the names that the disk may have: those of each moment since the folder's last
    sync."""
    found = {}
    for now in history.moments[history.moments[number].names_synced : number + 1]:
        found.setdefault(id(now.names), now.names)
    return list(found.values())


def names_without(history, number, chance):
    """Returns names that may be on a disk that they reach in any order: some calls since the
    folder's last sync aren't done."""
    since = history.moments[number].names_synced
    names = dict(history.moments[since].names)
    for at in range(since, number):
        call, then = history.calls[at], history.moments[at + 1].names
        if chance.random() < 0.5:
            continue
        if isinstance(call, Opened) and call.name in then:
            names[call.name] = then[call.name]
        elif isinstance(call, Moved) and call.old in names:
            names[call.new] = names.pop(call.old)
        elif isinstance(call, Removed):
            names.pop(call.name, None)
    return names


def lost(history, number, names, how):
    """Returns what is left of these names. `how` says how long each file is, by its name and the
    least and the most that it may have."""
    now = history.moments[number]
    lengths = {it: how(it, now.synced[it], now.lengths[it]) for it in names.values()}
    return Remains(number, names, lengths, f"a loss of power behind call {number}")


def least(_, synced, __):
    return synced


def most(_, __, held):
    return held


def drawn(chance):
    """Returns lengths at which files are written to, and others between."""

    def length(file, synced, held):
        between = [it for it in file.ends if synced <= it <= held]
        return chance.choice((synced, held, chance.choice(between or [held]), chance.randint(synced, held)))

    return length


def all_but_one(chance, names):
    """Returns one file with the least and all others with the most, or the other way round."""
    chosen, flipped = chance.choice(list(names.values()) or [None]), chance.random() < 0.5
    return lambda file, synced, held: synced if (file is chosen) != flipped else held


def losses(history, chance, count):
    """Returns what a power loss leaves: at each moment, with all names that the disk may have, the
    least and the most of all files, and so many drawn states."""
    for number in range(len(history.moments)):
        for names in names_in_order(history, number):
            yield from (lost(history, number, names, how) for how in (least, most))
    for _ in range(count):
        number = chance.randrange(len(history.moments))
        names = chance.choice(names_in_order(history, number))
        yield lost(history, number, names, chance.choice((drawn(chance), all_but_one(chance, names))))


def losses_in_any_order(history, chance, count):
    """Returns the same for a disk that names reach in any order, all of it drawn."""
    for _ in range(count):
        number = chance.randrange(len(history.moments))
        yield lost(history, number, names_without(history, number, chance), chance.choice((least, most, drawn(chance))))


# ---- power losses that leave zeros


def zeroed_losses(history, chance, count):
    """Returns so many states in which one file or each ends in zeros, none longer than it was: cut
    anywhere behind what was synced of it, and then zeros up to a length that it had."""
    moments = [number for number in range(len(history.moments)) if unsynced(history, number)]
    for number in chance.choices(moments, k=count) if moments else []:
        now, names = history.moments[number], chance.choice(names_in_order(history, number))
        chosen = chance.choice(unsynced(history, number))
        lengths, zeros = {}, {}
        for file in names.values():
            synced, held = now.synced[file], now.lengths[file]
            kept = chance.choice((synced, held, chance.randint(synced, held)))
            ends = [it for it in file.ends if kept <= it <= held] or [held]
            is_zeroed = file is chosen or chance.random() < 0.5
            lengths[file], zeros[file] = kept, chance.choice((held, chance.choice(ends), chance.randint(kept, held))) - kept if is_zeroed else 0
        yield Remains(number, names, lengths, f"a loss of power behind call {number} that leaves zeros", zeros)


def unsynced(history, number):
    """Returns the files that have bytes that weren't synced."""
    now = history.moments[number]
    return [file for file in now.names.values() if now.synced[file] < now.lengths[file]]
