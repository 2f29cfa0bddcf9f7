"""Processes that take turns on one folder, for tools/faults/turns: workers that live on, and
readers."""
import os
import random
import re
import signal
import subprocess
import tempfile

from listed import Wrong
from machine import text_of, word
from running import REASON, under_test

SECONDS = 60

# the status of a `get` that finds none, and the line of such a key beside others
NO_VALUE, NO_LINE = 4, r"\N"

# how standard error says a refusal
REFUSAL = re.compile(r": (refused \d+ \w+)")

KEYS = [b"a", b"b", b"c", b"d", b"ab", b"abc", b"x" * 40, b""]

# what the options of a process are drawn from: so small that a turn makes tables, and compactions
# into several levels
SIZES = {
    "--write-buffer": (1, 200, 2_000, 4_194_304), "--file-bytes": (1, 300, 2_097_152),
    "--level0-files": (1, 2, 4), "--base-bytes": (1, 400, 10_485_760),
}  # fmt: skip

# before which of its calls on the folder a reader is stopped: before none, if it makes fewer
MOST_CALLS = 40


def drawn_options(chance):
    return [text for name, sizes in SIZES.items() for text in (name, str(chance.choice(sizes)))]


class Worker:
    """A process that lives as long as the session. Its lines open and change the database."""

    def __init__(self, words, is_leveldb=False):
        self.is_leveldb = is_leveldb
        self.said = tempfile.TemporaryFile()
        self.process = subprocess.Popen(words, stdin=subprocess.PIPE, stdout=subprocess.PIPE, stderr=self.said)

    def answer(self, line):
        try:
            self.process.stdin.write(f"{line}\n".encode())
            self.process.stdin.flush()
            return self.process.stdout.readline().decode().rstrip("\n")
        except BrokenPipeError:
            return "(it has ended)"

    def want(self, line, *wanted):
        answer = self.answer(line)
        if answer not in wanted:
            raise Wrong(f"{self.name()}: {line[:200]!r} was answered {answer[:200]!r} instead of {wanted}")

    def name(self):
        return "LevelDB" if self.is_leveldb else "ldbtool run"

    def end(self):
        """Ends it, which must have said nothing but why it was refused."""
        self.process.stdin.close()
        self.process.wait(SECONDS)
        self.said.seek(0)
        said = [it for it in self.said.read().splitlines(keepends=True) if not REASON.match(it)]
        self.said.close()
        self.process.stdout.close()
        if self.process.returncode or said:
            raise Wrong(f"{self.name()} ended with status {self.process.returncode}, and said {said[:3]}")

    def kill(self):
        self.process.kill()
        self.process.wait()


class Reader:
    """A reading command that is stopped before one of its calls, until somebody asks it."""

    def __init__(self, shim, folder, verb, key, number):
        self.verb, self.key, self.number = verb, key, number
        words = {
            # (one `-` alone would be standard input)
            "get": ["get", folder, *([word(key)] if key else ["-", "-"])], "scan": ["scan", "--values", folder],
            "back": ["scan", "--values", "--reverse", folder], "export": ["export", folder],
        }[verb]  # fmt: skip
        self.counts = tempfile.NamedTemporaryFile()
        self.counts.write(bytes(16))
        self.counts.flush()
        environment = {
            **os.environ, "LD_PRELOAD": shim, "COUNTS_FILE": self.counts.name, "FOLDER": folder,
            "REFUSED_NUMBER": str(number), "STOPS": "1",
        }  # fmt: skip
        pipes = {"stdin": subprocess.DEVNULL, "stdout": subprocess.PIPE, "stderr": subprocess.PIPE}
        self.process = subprocess.Popen([under_test(), *words], env=environment, **pipes)
        stopped = os.waitid(os.P_PID, self.process.pid, os.WSTOPPED | os.WEXITED | os.WNOWAIT)
        self.is_stopped = stopped.si_code == os.CLD_STOPPED

    def found(self):
        """What it printed by its end: the pairs, or a value or None. Or why it was refused."""
        if self.is_stopped:
            self.process.send_signal(signal.SIGCONT)
        printed, said = self.process.communicate(timeout=SECONDS)
        self.counts.close()
        lines, said = printed.decode().splitlines(), said.decode()
        if self.process.returncode == 0 or self.verb == "get" and self.process.returncode == NO_VALUE:
            if said:
                raise Wrong(f"{self} said {said[:200]!r} beside its answer")
            return self.read(lines), ""
        refusal = REFUSAL.search(said)
        if not refusal or self.verb == "get" and lines:
            how = f"status {self.process.returncode}, printed {lines[-1:]} and said {said[:200]!r}"
            raise Wrong(f"{self} ended with {how}")
        return None, f"{refusal[1]}: {said.strip()}"

    def read(self, lines):
        if self.verb == "get":
            return text_of(lines[0]) if lines and lines[0] != NO_LINE else None
        pairs = [it.removeprefix("put ").split(" ") for it in lines]
        keys = [text_of(key) for key, _ in pairs]
        if keys != sorted(set(keys), reverse=self.verb == "back"):
            raise Wrong(f"{self} printed keys in another order: {lines[:5]}")
        return {text_of(key): text_of(value) for key, value in pairs}

    def is_of(self, found, pairs):
        """Whether it may find this where the database has these pairs."""
        return found == (pairs.get(self.key) if self.verb == "get" else pairs)

    def __str__(self):
        where = f", stopped before call {self.number}," if self.is_stopped else ""
        return f"a reader ({self.verb}{where})"

    def kill(self):
        self.process.kill()
        self.process.communicate()


def drawn_reader(chance, shim, folder):
    verb = chance.choice(("get", "scan", "scan", "back", "export"))
    return Reader(shim, folder, verb, chance.choice(KEYS), chance.randrange(1, MOST_CALLS))


class Drawn:
    """Draws what is written, with values that no batch before had."""

    def __init__(self, seed):
        self.chance, self.count = random.Random(seed), 0

    def batch(self, pairs):
        """The operations of a batch, and these pairs with them. Half of them change each key."""
        pairs, words = dict(pairs), []
        keys = KEYS if self.chance.random() < 0.5 else self.chance.sample(KEYS, self.chance.choice((1, 1, 2, 4)))
        self.count += 1
        for key in keys:
            if self.chance.random() < 0.2:
                pairs.pop(key, None)
                words.append(f"del {word(key)}")
            else:
                pairs[key] = self.count.to_bytes(3, "big") + b"v" * self.chance.choice((0, 5, 200))
                words.append(f"put {word(key)} {word(pairs[key])}")
        return words, pairs
