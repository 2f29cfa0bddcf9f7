"""A plain model of ldbtool's sessions: the answers that commands of a script may have, refusals of
memory and of the device among them, and what the directory holds then."""
import copy


def word(text):
    return text.hex() or "-"


def text_of(a_word):
    return b"" if a_word == "-" else bytes.fromhex(a_word)


class View:
    """Holds what a snapshot or an iterator sees, in the order of bytes or its reverse, and the pair
    at which it stands."""

    def __init__(self, pairs, turned=False):
        self.pairs = pairs
        self.turned = turned
        self.keys = sorted(pairs, reverse=turned)
        self.place = None

    def stand(self, place):
        self.place = place if place is not None and 0 <= place < len(self.keys) else None
        if self.place is None:
            return "end"
        key = self.keys[self.place]
        return f"at {word(key)} {word(self.pairs[key])}"

    def seek(self, key):
        return self.stand(next((place for place, it in enumerate(self.keys) if (it <= key if self.turned else it >= key)), None))

    def step(self, by):
        return "refused 10 NoPlace" if self.place is None else self.stand(self.place + by)

    def move(self, verb, key):
        """Returns the answer of a move, which was made."""
        moves = {
            "first": lambda: self.stand(0),
            "last": lambda: self.stand(len(self.keys) - 1),
            "seek": lambda: self.seek(key),
            "next": lambda: self.step(1),
            "prev": lambda: self.step(-1),
        }
        return moves[verb]()


MEMORY, DEVICE = "refused 1 OutOfMemory", "refused 2 Io"
CLOSED, BROKEN = "refused 16 NotOpen", "refused 7 Broken"
MOVES = ("first", "last", "seek", "next", "prev")


class Machine:
    """Holds one state that a session may be in. `doubt` is what the directory holds if the in-doubt
    batch counts; `turned` says that keys are in the reverse order of bytes."""

    def __init__(self, turned=False):
        self.turned = turned
        self.pairs, self.doubt = {}, None
        self.is_made = self.is_open = self.is_broken = False
        self.snapshots, self.iterators = {}, {}
        self.last_snapshot = self.last_iterator = 0

    def changed(self, **fields):
        other = copy.deepcopy(self)
        for name, value in fields.items():
            setattr(other, name, value)
        return other

    def after(self, line, answer):
        """Returns the states in which a session may be after the command if it was answered so:
        none if it may not be answered so."""
        verb, *words = line.split(" ")
        if verb == "open":
            return self.after_open(words[0] if words else "old", answer)
        if not self.is_open:
            return [self] if answer == CLOSED else []
        if verb == "close":
            closed = {"is_open": False, "is_broken": False, "snapshots": {}, "iterators": {}}
            return [self.changed(**closed)] if answer == "ok" else []
        if self.is_broken:
            return [self] if answer == BROKEN else []
        return self.after_served(verb, words, answer)

    def after_open(self, mode, answer):
        if self.is_open:
            return [self] if answer == (BROKEN if self.is_broken else "refused 17 AlreadyOpen") else []
        if answer in (MEMORY, DEVICE):
            # (it may have got as far as CURRENT)
            return [self, self.changed(is_made=True)]
        if self.is_made and mode == "new":
            return [self] if answer == "refused 4 Exists" else []
        if not self.is_made and mode == "old":
            return [self] if answer == "refused 3 NoDatabase" else []
        opened = {"is_made": True, "is_open": True, "doubt": None}
        held = [self.pairs] + ([] if self.doubt is None else [self.doubt])
        return [self.changed(pairs=pairs, **opened) for pairs in held] if answer == "ok" else []

    def after_served(self, verb, words, answer):
        if verb in ("put", "del", "write"):
            return self.after_write(self.written(verb, words), answer)
        if verb in ("work", "compact"):
            served = answer in (("worked", "idle") if verb == "work" else ("ok",))
            return [self] if served or answer == MEMORY else self.broken_by(answer)
        if verb in MOVES:
            return self.after_move(verb, words, answer)
        if answer in (MEMORY, DEVICE):
            return [self] if verb in ("get", "snapshot", "iter") else []
        return self.after_read(verb, words, answer)

    def broken_by(self, answer):
        return [self, self.changed(is_broken=True)] if answer == DEVICE else []

    def written(self, verb, words):
        """Returns what the directory holds after a write."""
        pairs, rest = dict(self.pairs), [verb, *words] if verb != "write" else [it for it in words if it != "sync"]
        while rest:
            if rest[0] == "put":
                pairs[text_of(rest[1])], rest = text_of(rest[2]), rest[3:]
            else:
                pairs.pop(text_of(rest[1]), None)
                rest = rest[2:]
        return pairs

    def after_write(self, pairs, answer):
        if answer == DEVICE:
            return [self.changed(is_broken=True, doubt=pairs)]
        return [self] if answer == MEMORY else [self.changed(pairs=pairs)] if answer == "ok" else []

    def after_move(self, verb, words, answer):
        number = int(words[0])
        if number not in self.iterators:
            return [self] if answer == "refused 9 NoIterator" else []
        if answer in (MEMORY, DEVICE):
            return [self]
        moved = copy.deepcopy(self)
        return [moved] if answer == moved.iterators[number].move(verb, text_of(words[1]) if verb == "seek" else None) else []

    def after_read(self, verb, words, answer):
        if verb == "snapshot":
            number = self.last_snapshot + 1
            taken = {"last_snapshot": number, "snapshots": {**self.snapshots, number: self.pairs}}
            return [self.changed(**taken)] if answer == f"snapshot {number}" else []
        if verb in ("release", "drop"):
            return self.after_drop("snapshots" if verb == "release" else "iterators", int(words[0]), answer)
        number = int(words[-1]) if len(words) == (1 if verb == "iter" else 2) else None
        if number is not None and number not in self.snapshots:
            return [self] if answer == "refused 8 NoSnapshot" else []
        pairs = self.pairs if number is None else self.snapshots[number]
        if verb == "get":
            key = text_of(words[0])
            return [self] if answer == (f"value {word(pairs[key])}" if key in pairs else "none") else []
        made = self.last_iterator + 1
        with_it = {"last_iterator": made, "iterators": {**self.iterators, made: View(pairs, self.turned)}}
        return [self.changed(**with_it)] if answer == f"iter {made}" else []

    def after_drop(self, what, number, answer):
        live = dict(getattr(self, what))
        if live.pop(number, None) is None:
            return [self] if answer == ("refused 8 NoSnapshot" if what == "snapshots" else "refused 9 NoIterator") else []
        return [self.changed(**{what: live})] if answer == "ok" else []


def after_all(lines, answers, states=None):
    """Returns the states in which a session may be after these answers, and the first line whose
    answer none allows, if there is one. It begins in one of these states, or in an empty folder."""
    states = states or [Machine()]
    for line, answer in zip(lines, answers):
        states = [new for old in states for new in old.after(line, answer)]
        if not states:
            return [], (line, answer)
    return states, None
