"""Checks of tools/checks/program about streams: outputs that fail, pipes, and what a person at a
terminal sees."""
import contextlib
import os
import re
import resource
import select
import signal
import socket
import subprocess
import time

from files import ONE_TABLE, bytes_of, log_file, new_folder, with_table
from listed import check
from running import SECONDS, ldbtool, lines, said_beside, under_test, want, want_answers, want_entries, want_ran, want_report


def failing_behind(count):
    """Prepares a child before it starts, so that none of its files grows beyond this. It gets an
    error then."""

    def limit():
        signal.signal(signal.SIGXFSZ, signal.SIG_IGN)
        resource.setrlimit(resource.RLIMIT_FSIZE, (count, count))

    return limit


def want_beginning(room, words, script, whole, count):
    """Checks that an output that takes so many bytes gets exactly these, and that the status is
    1."""
    path = f"{room}/output"
    with open(path, "wb") as output:
        how = {"input": script, "stdout": output, "stderr": subprocess.PIPE, "timeout": SECONDS, "preexec_fn": failing_behind(count)}
        ran = subprocess.run([under_test(), *words], **how)
    wanted = (0, whole) if count >= len(whole) else (1, whole[:count])
    want((ran.returncode, bytes_of(room, "output")), wanted, f"{words[0]} behind byte {count} of {len(whole)}")
    # the limit holds for standard error too, but that is a pipe
    want(said_beside(whole, ran.stderr) != b"", count < len(whole), f"{words[0]} says the fault behind byte {count}")


@check("an output that fails behind any byte has got the bytes before, and the status is 1")
def failing_outputs(room):
    folder = with_table(room, "folder", ONE_TABLE, **{"000004.log": log_file([(2, [("63", "33"), ("62", None)])])})
    shown = lines("table 6 5 61 1 put 31", "log 4 63 2 put 33", "log 4 62 3 delete")
    report = lines("good", "last-sequence 3", "table 6 5 1", "log 3 0 clean", "log 4 1 clean")
    answers = lines("refused 16 NotOpen", "refused 20 BadLine", "refused 16 NotOpen")
    for words, script, whole in ((["dump", folder], b"", shown), (["check", folder], b"", report), (["run", folder], b"close\nx\nget 61", answers)):
        for count in range(len(whole) + 2):
            want_beginning(room, words, script, whole, count)


@check("a script whose output fails leaves a good directory, with what was written before")
def failing_scripts(room):
    folder = new_folder(room)
    value = "5a" * 1_000
    want_answers(folder, f"open new; put 61 {value}", "ok; ok")
    script = lines("open", *["get 61" for _ in range(40)], "put 62 32")
    whole = lines("ok", *[f"value {value}" for _ in range(40)], "ok")
    for count in (4_096, 4_097, 60_000, 65_535, 65_536, 65_537, len(whole) - 1, len(whole)):
        want_beginning(room, ["run", folder], script, whole, count)
        ran = ldbtool("check", folder)
        want((ran.returncode, ran.stdout[:5]), (0, b"good\n"), f"check behind a failure at byte {count}")
    want_answers(folder, "open; get 61; get 62", f"ok; value {value}; value 32")


@check("a device without room is said, with status 1")
def full_device(room):
    folder = with_table(room, "folder", ONE_TABLE)
    for words in (["dump", folder], ["check", folder], ["run", folder], ["--help"], ["help", "scan"], ["--version"]):
        with open("/dev/full", "wb") as full:
            ran = subprocess.run([under_test(), *words], input=b"get 61\n", stdout=full, stderr=subprocess.PIPE, timeout=SECONDS)
        want((ran.returncode, ran.stderr[:9]), (1, b"ldbtool: "), f"{words} to /dev/full")


@check("a pipe that nobody reads any more ends it with status 1, without a word")
def closed_pipe(room):
    folder = new_folder(room)
    want_answers(folder, lines("open new", *[f"put {n:08x} {'ab' * 500}" for n in range(300)]), "; ".join(["ok"] * 301))
    for words, script in ((["dump", folder], b""), (["run", folder], b"close\n" * 100_000), (["--help"], b"")):
        reading, writing = os.pipe()
        if words[0] != "dump":
            # (a short text would be written before a later close)
            os.close(reading)
        with subprocess.Popen([under_test(), *words], stdin=subprocess.PIPE, stdout=writing, stderr=subprocess.PIPE) as ran:
            os.close(writing)
            if words[0] == "dump":
                os.read(reading, 1)
                os.close(reading)
            _, said = ran.communicate(script, SECONDS)
        want((ran.returncode, said), (1, b""), f"{words[0]} into a closed pipe")


@contextlib.contextmanager
def at_hand(folder, *options):
    """Runs the program with its input and output at hand. At the end the input is closed, and the
    rest of the output read."""
    with subprocess.Popen([under_test(), "run", *options, folder], stdin=subprocess.PIPE, stdout=subprocess.PIPE, stderr=subprocess.DEVNULL, bufsize=0) as ran:
        yield ran
        ran.stdin.close()
        want((ran.stdout.read(), ran.wait(SECONDS)), (b"", 0), "the end of a script that was typed")


def want_next(ran, typed, answer):
    ran.stdin.write(typed)
    found = b""
    while found.count(b"\n") < answer.count(b"\n") and select.select([ran.stdout], [], [], 10)[0]:
        found += ran.stdout.read(65_536)
    want(found, answer, f"the answer to {typed!r}, before more is typed")


@check("each answer comes before the next line is typed, also where half of that is there")
def typed(room):
    with at_hand(new_folder(room)) as ran:
        want_next(ran, b"open new\n", b"ok\n")
        want_next(ran, b"put 61 31\nput 62", b"ok\n")
        want_next(ran, b" 32\n", b"ok\n")
        want_next(ran, b"get 61\nget 62\nge", b"value 31\nvalue 32\n")
        want_next(ran, b"t 63\n", b"none\n")


@check("answers to a script that is there are written together")
def together(room):
    script = b"get 61\n" * 5_000
    with open(f"{room}/script", "wb") as file:
        file.write(script)
    ours, theirs = socket.socketpair(socket.AF_UNIX, socket.SOCK_SEQPACKET)
    with ours, open(f"{room}/script", "rb") as file, subprocess.Popen([under_test(), "run", room], stdin=file, stdout=theirs) as ran:
        theirs.close()
        written = list(iter(lambda: ours.recv(2**20), b""))
    want(ran.returncode, 0, "status")
    want(b"".join(written), b"refused 16 NotOpen\n" * 5_000, "answers")
    want(len(written) <= 4, True, f"{len(written)} writes are few")


@check("while one has the database open another is refused, and check and dump read it")
def locked(room):
    folder = new_folder(room)
    with at_hand(folder) as ran:
        want_next(ran, b"open new\nput 61 31\n", b"ok\nok\n")
        want_answers(folder, "open; open any; get 61", "refused 18 Locked; refused 18 Locked; refused 16 NotOpen")
        want_report(folder, "good", "last-sequence 1", "log 2 1 clean")
        want_entries(folder, "log 2 61 1 put 31")
    want_answers(folder, "open; get 61", "ok; value 31")


def read_by(ran):
    """Returns how many bytes a process has read."""
    with open(f"/proc/{ran.pid}/io", encoding="ascii") as file:
        return int(re.search(r"rchar: (\d+)", file.read())[1])


def is_held(verb, folder, error):
    """Holds a reading of a folder for more than a second, and returns whether the reading was on
    its way. A busy machine may come to it too late."""
    with subprocess.Popen([under_test(), verb, folder], stdin=subprocess.DEVNULL, stdout=subprocess.DEVNULL, stderr=error) as ran:
        while ran.poll() is None and read_by(ran) < 1_000_000:
            pass
        ran.send_signal(signal.SIGSTOP)
        held = ran.poll() is None and read_by(ran) < 4_000_000
        if held:
            time.sleep(1.1)
        ran.send_signal(signal.SIGCONT)
        want(ran.wait(SECONDS), 0, f"the status of a {verb} that was held")
    return held


def said_when_held(verb, folder, error):
    """Does this until the reading was held on its way."""
    want(any(is_held(verb, folder, error) for _ in range(20)), True, f"a {verb} is held before it ends")


@check("a check or a dump that takes longer than a second says at a terminal how far it is, and nowhere else")
def progress(room):
    folder, value = new_folder(room), "5a" * 10_000
    script = lines("open new", *[f"put {n:04x} {value}" for n in range(800)], "compact all", "close")
    want_answers(folder, script, "; ".join(["ok"] * 803))
    for verb in ("check", "dump"):
        ours, theirs = os.openpty()
        said_when_held(verb, folder, theirs)
        os.close(theirs)
        want(bool(re.match(rb"ldbtool: \d+ of \d+ MB read after [1-9]\d* s\r\n", os.read(ours, 65_536))), True, f"{verb} says how far it is")
        os.close(ours)
        with open(f"{room}/said", "wb") as file:
            said_when_held(verb, folder, file)
        want(bytes_of(room, "said"), b"", f"what {verb} says where nobody watches")


WRITTEN = rb"ldbtool: \d+ MB read and \d+ MB written after [1-9]\d* s\r\n"


def compaction_is_held(room, number, error):
    folder = new_folder(room, f"folder {number}")
    want_ran(ldbtool("import", folder, script=lines(*[f"put {n:04x} {'5a' * 10_000}" for n in range(800)])), 0, b"taken 800\n", "an import")
    return is_held("compact", folder, error)


@check("an import or a compaction that takes longer than a second says at a terminal what it has read and written, and nowhere else")
def progress_of_writers(room):
    ours, theirs = os.openpty()
    want(any(compaction_is_held(room, number, theirs) for number in range(20)), True, "a compaction is held before it ends")
    os.close(theirs)
    want(bool(re.match(WRITTEN, os.read(ours, 65_536))), True, "a compaction says how far it is")
    os.close(ours)
    for watched in (True, False):
        ours, theirs = os.openpty()
        how = {"stdin": subprocess.PIPE, "stdout": subprocess.PIPE, "stderr": theirs if watched else subprocess.PIPE}
        with subprocess.Popen([under_test(), "import", "--batch", "1", new_folder(room, f"slow {watched}")], **how) as ran:
            os.close(theirs)
            ran.stdin.write(b"put 61 31\n")
            ran.stdin.flush()
            time.sleep(1.2)
            out, said = ran.communicate(b"put 62 32\n", SECONDS)
        want((ran.returncode, out, said), (0, b"taken 2\n", None if watched else b""), "an import that takes a while")
        if watched:
            want(bool(re.match(WRITTEN, os.read(ours, 65_536))), True, "an import says how far it is")
        os.close(ours)
