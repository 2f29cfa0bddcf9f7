"""Checks of tools/checks/program over folders that change while a session goes on: a full disk, a
folder that may not be written any more, files that are removed. Every answer is one that a plain
model may give, or says that the files are damaged. Nothing is lost that was acknowledged."""
import contextlib
import os
import shutil
import subprocess

from files import bytes_of, new_folder
from judged import want_held
from listed import Wrong, check
from machine import after_all
from running import SECONDS, lines, under_test, want, want_answers, want_entries
from streams import failing_behind

OPTIONS = ["--write-buffer", "300", "--level0-files", "2", "--block-bytes", "64", "--file-bytes", "400"]

# writes, flushes and compactions, with a close between them
SESSION = [
    "open any",
    *[line for number in range(12) for line in (f"put {number % 5:02x} {number:02x}{'5a' * 60}", f"get {number % 5:02x}", "work 3")],
    "iter", "first 1", "next 1", "prev 1", "drop 1", "del 01", "snapshot", "compact all", "get 00 1", "put 07 31",
    "close", "open any", *[f"get {number:02x}" for number in range(5)], "write sync put 08 32 del 02", *["work 9"] * 4, "compact 0", "get 08", "close",
]  # fmt: skip

CORRUPT = "refused 5 Corrupt"
UNCHANGED = ("get", "iter", "first", "next", "prev", "work", "compact", "open")


def judged(typed, answers, folder):
    """Checks that each answer is one that the model allows, and that the directory holds what it
    has. If files were found damaged, nothing was done."""
    told = [(line, answer) for line, answer in zip(typed, answers) if answer != CORRUPT or line.split()[0] not in UNCHANGED]
    states, fault = after_all(*(list(it) for it in zip(*told)))
    if fault:
        raise Wrong(f"{fault[0]!r} was answered {fault[1]!r}")
    want_held(folder, states)


@check("on a disk that is full, whatever the room, nothing is lost that was acknowledged")
def full_disk(room):
    refused = 0
    for count in (*range(0, 700, 23), *range(700, 1_500, 101), 2_000, 10_000):
        folder = new_folder(room, f"{count}")
        ran = subprocess.run([under_test(), "run", *OPTIONS, folder], input=lines(*SESSION), stdout=subprocess.PIPE, stderr=subprocess.DEVNULL, preexec_fn=failing_behind(count), timeout=SECONDS)
        answers = ran.stdout.decode().splitlines()
        if (ran.returncode, len(answers)) != (0, len(SESSION)):
            raise Wrong(f"files of {count} bytes: status {ran.returncode}, {len(answers)} answers")
        refused += "refused 2 Io" in answers
        try:
            judged(SESSION, answers, folder)
        except Wrong as fault:
            raise Wrong(f"files of {count} bytes: {fault}") from fault
    if not 20 <= refused <= 40:
        raise Wrong(f"{refused} of the disks were full")


class Typed:
    """Runs a session whose lines are typed one after the other."""

    def __init__(self, process):
        self.process = process
        self.answers = []

    def give(self, script):
        for line in script:
            self.process.stdin.write(lines(line))
            self.process.stdin.flush()
            self.answers.append(self.process.stdout.readline().decode().rstrip("\n"))


@contextlib.contextmanager
def typing(folder, program=None, **how):
    with subprocess.Popen([program or under_test(), "run", *OPTIONS, folder], stdin=subprocess.PIPE, stdout=subprocess.PIPE, stderr=subprocess.DEVNULL, **how) as process:
        yield Typed(process)
        process.stdin.close()
        if process.wait(SECONDS):
            raise Wrong(f"status {process.returncode}")


def without(room, folder, name, place):
    """Runs the session without this file from this line on to the next close. Then it puts the file
    back, unless one of its name was made."""
    closed = SESSION.index("close", place) + 1
    with typing(folder) as session:
        session.give(SESSION[:place])
        shutil.move(f"{folder}/{name}", f"{room}/taken")
        session.give(SESSION[place:closed])
        if not os.path.exists(f"{folder}/{name}"):
            shutil.move(f"{room}/taken", f"{folder}/{name}")
        session.give(SESSION[closed:])
    return session.answers


@check("where another program takes a file away while a database is open, no answer is wrong, and nothing is lost once it is back")
def taken_files(room):
    taken = 0
    for place in range(1, len(SESSION), 5):
        names = new_folder(room, f"names {place}")
        with typing(names) as session:
            session.give(SESSION[:place])
            listed = sorted(os.listdir(names))
        for name in listed:
            folder = new_folder(room, f"{place} {name}")
            try:
                judged(SESSION, without(room, folder, name, place), folder)
            except Wrong as fault:
                raise Wrong(f"without {name} from line {place} on: {fault}") from fault
            taken += 1
    if taken < 60:
        raise Wrong(f"{taken} files were taken away")


def as_a_user(room):
    """Returns how to run a program that must keep to the rights of files, as root need not: the
    words and its path."""
    if os.geteuid():
        return under_test(), {}
    os.chmod(room, 0o755)
    program = shutil.copy(under_test(), f"{room}/ldbtool")
    os.chmod(program, 0o755)
    return program, {"user": 65_534, "group": 65_534, "extra_groups": []}


@check("in a folder that turns read-only nothing is lost that was acknowledged")
def read_only(room):
    program, how = as_a_user(room)
    refused = 0
    for place in range(1, len(SESSION), 3):
        folder = new_folder(room, f"{place}")
        if how:
            os.chown(folder, how["user"], how["group"])
        with typing(folder, program, **how) as session:
            session.give(SESSION[:place])
            os.chmod(folder, 0o555)
            session.give(SESSION[place:])
        os.chmod(folder, 0o755)
        refused += "refused 2 Io" in session.answers
        try:
            judged(SESSION, session.answers, folder)
        except Wrong as fault:
            raise Wrong(f"read-only from line {place} on: {fault}") from fault
    if refused < 10:
        raise Wrong(f"{refused} sessions met a refusal")


@check("a file of somebody's beside the lock, LOCK-wal, keeps its bytes, and a folder of that name is left alone")
def beside_the_lock(room):
    folder = new_folder(room, "file")
    with open(f"{folder}/LOCK-wal", "wb") as file:
        file.write(b"mine")
    for script in ("open new; put 61 31; close", "open; put 62 32; close"):
        want_answers(folder, script, "ok; ok; ok")
        want(bytes_of(folder, "LOCK-wal"), b"mine", "its bytes")
    want_entries(folder, "log 2 61 1 put 31", "log 4 62 2 put 32")
    other = new_folder(room, "folder")
    os.mkdir(f"{other}/LOCK-wal")
    want_answers(other, "open new", "refused 2 Io")
    want(sorted(os.listdir(other)), ["LOCK", "LOCK-wal"], "what is in it")
