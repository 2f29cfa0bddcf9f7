"""What is promised of a folder that a session of ldbtool leaves: which batches it holds after a
crash and after a power loss. A session is known by its recording (recorded.py), what is left of it
by remains.py."""
import bisect
import math
import operator
from dataclasses import dataclass

from listed import Wrong
from machine import BROKEN, CLOSED, DEVICE, MEMORY, Machine, text_of
from recorded import Answered, Locked, Moved, Opened, Removed, Wrote

WRITES = ("put", "del", "write")

# the file that is made to take the lock
LOCKS = ("LOCK", "LOCK-wal")


@dataclass(frozen=True)
class Found:
    """Holds what a reader finds in a folder: its pairs, or nothing if it refuses it. If the reader
    has a check, it also holds the last sequence and the numbers of logs in use."""

    refusal: str = ""
    pairs: dict = None
    sequence: int = None
    live_logs: tuple = ()


@dataclass(frozen=True)
class Batch:
    """Holds a batch that succeeded: its line, what the folder then holds, and the log with the
    batch's place there."""

    line: int
    text: str
    pairs: dict
    sequence: int
    log: object
    number: int
    end: int


def operations_in(line):
    """Counts the operations that a line writes, which take as many sequences."""
    words = line.split(" ")
    return 1 if words[0] != "write" else words.count("put") + words.count("del")


def keys_in(line):
    """Returns the keys that a line writes."""
    words = line.split(" ")
    return [text_of(words[place + 1]) for place, it in enumerate(words) if it in ("put", "del")]


def is_synced(line):
    return line.startswith("write sync")


def applied(pairs, line):
    """Returns the pairs after a line that writes."""
    machine = Machine()
    machine.pairs = pairs
    verb, *words = line.split(" ")
    return machine.written(verb, words)


class InDoubt(Exception):
    """Says that a batch was refused that the folder may hold: the answers don't tell what should be
    left."""


class Story:
    """Holds the batches of a session, and how many of them had succeeded at each moment. The
    session begins over a folder with these pairs, up to this sequence. If commands may be refused,
    refused ones count for nothing. If opens keep what they find, that is durable after one that
    succeeds."""

    def __init__(self, recording, history, pairs=None, sequence=0, may_refuse=False, opens_keep=False):
        self.history, self.script = history, recording.script
        (want_certain if may_refuse else want_accepted)(recording)
        # at each moment, how many lines were answered
        self.answered = [0]
        for call in history.calls:
            self.answered.append(self.answered[-1] + (call.lines if isinstance(call, Answered) else 0))
        if self.answered[-1] != len(self.script):
            raise Wrong(f"the record has {self.answered[-1]} answers to {len(self.script)} lines")
        self.pairs, self.sequence = pairs or {}, sequence
        self.batches = []
        for number, (line, answer) in enumerate(zip(self.script, recording.answers)):
            if line.split(" ")[0] in WRITES and answer == "ok":
                self.batches.append(self.batch(number, line))
        # the lines after which all batches so far are durable
        answered = enumerate(zip(self.script, recording.answers))
        self.keeping = [number for number, (line, answer) in answered if answer == "ok" and (is_synced(line) or opens_keep and line.startswith("open"))]

    def batch(self, number, line):
        pairs, sequence = self.state(len(self.batches))
        log, name, end = self.place(number)
        return Batch(number, line, applied(pairs, line), sequence + operations_in(line), log, name, end)

    def calls_of(self, line):
        """Returns the places of the calls that a line made."""
        return range(bisect.bisect_left(self.answered, line), bisect.bisect_left(self.answered, line + 1))

    def place(self, line):
        """Returns where a line's batch lies: the log, its number, and its end there. An empty batch
        has no place."""
        for at in reversed(self.calls_of(line)):
            log, now = self.history.written.get(at), self.history.moments[at + 1]
            name = next((name for name, it in now.names.items() if it is log and name.endswith(".log")), None)
            if name:
                return log, int(name[:-4]), now.lengths[log]
        return None, math.inf, 0

    def state(self, count):
        """Returns the pairs and the last sequence after so many batches."""
        return (self.batches[count - 1].pairs, self.batches[count - 1].sequence) if count else (self.pairs, self.sequence)

    def accepted(self, moment):
        """Returns how many batches were answered by then, how many of them are durable, and whether
        another was under way."""
        lines, written = self.answered[moment], [it.line for it in self.batches]
        count = bisect.bisect_left(written, lines)
        kept = bisect.bisect_right(written, max((it for it in self.keeping if it < lines), default=-1))
        return count, kept, count < len(self.batches) and self.batches[count].line == lines


def want_accepted(recording):
    """Checks that each command was done."""
    for line, answer in zip(recording.script, recording.answers):
        if answer not in (("worked", "idle") if line.startswith("work ") else ("ok",)):
            raise Wrong(f"{line[:200]!r} was answered {answer[:200]!r}")


def want_certain(recording):
    """Checks that each write was done, or refused before it began."""
    for line, answer in zip(recording.script, recording.answers):
        if line.split(" ")[0] in WRITES and answer in (MEMORY, DEVICE):
            raise InDoubt(line)
        if line.split(" ")[0] in WRITES and answer not in ("ok", BROKEN, CLOSED):
            raise Wrong(f"{line[:200]!r} was answered {answer[:200]!r}")


def want_locked(story):
    """Checks that each open has the lock before it changes another file."""
    for line, text in enumerate(story.script):
        calls = [story.history.calls[at] for at in story.calls_of(line)]
        locks = [at for at, it in enumerate(calls) if isinstance(it, Locked)]
        changes = [at for at, it in enumerate(calls) if isinstance(it, (Wrote, Moved)) or isinstance(it, (Opened, Removed)) and it.name not in LOCKS]
        if text.startswith("open") and changes and (not locks or changes[0] < locks[0]):
            raise Wrong(f"{text!r} changes a file before it has the lock")


# ---- the promises


def breach(story, found, least, most, is_last):
    """Says what is wrong with a folder that must hold between so many and so many first batches, or
    nothing. Its last sequence must agree."""
    if found.refusal:
        return found.refusal
    states = [story.state(count) for count in range(least, most + 1)]
    if any(found.pairs == pairs and (found.sequence is None or is_last(found.sequence, sequence)) for pairs, sequence in states):
        return ""
    held = [count for count in range(len(story.batches) + 1) if story.state(count)[0] == found.pairs]
    what = f"the pairs behind batch {held[-1]}" if held else "the pairs behind no batch"
    return f"it holds {what}, by sequence {found.sequence}, and not those behind one of {least} to {most}"


def breach_of_stop(story, remains, found):
    """Checks that all that was answered is there, and of the batch under way all or nothing."""
    count, _, is_under_way = story.accepted(remains.moment)
    return breach(story, found, count, count + is_under_way, operator.eq)


def breach_of_loss(story, remains, found):
    """Checks that all up to the last synced batch that was answered is there, or to the last open
    if opens keep what they find. Of what came later a prefix must be there: no batch is gone while
    a later one is there. (A synced MANIFEST may tell of sequences whose batches are lost.)"""
    count, kept, is_under_way = story.accepted(remains.moment)
    return breach(story, found, kept, count + is_under_way, operator.ge)
