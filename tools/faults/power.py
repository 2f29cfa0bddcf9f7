"""Power losses on ext4, XFS and Btrfs themselves, for tools/faults/soak: a file system with its
default options in a loop device, whose image is copied while databases are written. It needs root,
a loop device, and the programs that make such file systems (Debian's xfsprogs and btrfs-progs).

    python3 tools/faults/power.py [NAME..]    ext4, xfs, btrfs; over build/ldbtool, or LDBTOOL=FILE

On ext4 the kernel gives each file's size to the journal five seconds after an append, and the bytes
later, so copies are of some twenty moments. In each the directories are mended by `ldbtool mend`
where a check refuses them, and hold what was synced then.
"""
import functools
import os
import random
import shutil
import subprocess
import sys
import tempfile
import threading
import time

sys.path.insert(1, f"{os.path.dirname(os.path.abspath(__file__))}/..")
from listed import Wrong, refuse
from machine import word
from running import ldbtool, missing, under_test

CUTS = 20

# of each file system its size in megabytes (XFS has at least 300), what makes one, and whether some
# directory must have ended in zeros
SYSTEMS = {
    "ext4": (32, ("mkfs.ext4", "-q", "-F"), True),
    "xfs": (300, ("mkfs.xfs", "-q", "-f"), False),
    "btrfs": (160, ("mkfs.btrfs", "-q", "-f"), False),
}

# the sizes of a database's values, how many batches come from one sync to the next, the seconds
# between them, and the options
KINDS = {
    "small": ((0, 3, 20), 32, 0.11, ()),
    "middle": ((300, 900), 20, 0.07, ()),
    "blocks": ((9_000, 20_000, 40_000), 12, 0.23, ()),
    "never synced": ((0, 100), 10**9, 0.17, ()),
    "tables": ((3, 50), 24, 0.3, ("--write-buffer", "1")),
}  # fmt: skip


class Unable(Exception):
    """Says why no file system is made here."""


def system(*words):
    if not shutil.which(words[0]):
        raise Unable(f"there is no {words[0]}")
    ran = subprocess.run(words, capture_output=True, text=True, check=False)
    if ran.returncode:
        raise Unable(f"`{' '.join(words[:2])}` fails: {ran.stderr.strip()[:200]}")


class Mounted:
    """Holds an image that is mounted."""

    def __init__(self, image, place):
        os.makedirs(place, exist_ok=True)
        system("mount", "-o", "loop", image, place)
        self.place = place

    def __enter__(self):
        return self.place

    def __exit__(self, *_):
        subprocess.run(["umount", self.place], check=False)


class Writer(threading.Thread):
    """Writes batches into one database: each sets `n` to its number. It knows which was answered,
    and which of them with a sync."""

    def __init__(self, folder, kind):
        super().__init__()
        self.sizes, self.each, self.pause, self.options = KINDS[kind]
        self.folder, self.chance = folder, random.Random(kind)
        self.begun = self.synced = 0
        self.is_over, self.fault = False, None

    def run(self):
        words = [under_test(), "run", *self.options, self.folder]
        with subprocess.Popen(words, stdin=subprocess.PIPE, stdout=subprocess.PIPE, bufsize=0) as process:
            self.give(process, "open any", ("ok",))
            while not self.is_over and not self.fault:
                self.write(process)
                time.sleep(self.pause)
            process.stdin.close()
            process.stdout.read()

    def write(self, process):
        number = self.begun = self.begun + 1
        is_synced = number % self.each == 1 and self.each < 10**9
        value = word(self.chance.randbytes(self.chance.choice(self.sizes)))
        verb = "write sync" if is_synced else "write"
        self.give(process, f"{verb} put 6e {word(str(number).encode())} put 76{number % 50:02x} {value}", ("ok",))
        self.synced = number if is_synced else self.synced
        if self.options:
            self.give(process, "work 1", ("worked", "idle"))

    def give(self, process, line, answers):
        process.stdin.write(f"{line}\n".encode())
        answer = process.stdout.readline().decode().strip()
        if answer not in answers:
            self.fault = f"{line[:80]!r} was answered {answer!r}"


def parts(file):
    """Yields each part of a file that has data, with its place."""
    size, at = os.fstat(file.fileno()).st_size, 0
    while at < size:
        try:
            at = os.lseek(file.fileno(), at, os.SEEK_DATA)
        except OSError:
            return
        end = os.lseek(file.fileno(), at, os.SEEK_HOLE)
        file.seek(at)
        yield at, file.read(end - at)
        at = end


def is_same(image, copy):
    with open(image, "rb", buffering=0) as one, open(copy, "rb", buffering=0) as other:
        return list(parts(one)) == list(parts(other))


def copied(image, to):
    """Copies the image until a copy is that of one moment, and returns whether one was."""
    for _ in range(8):
        with open(image, "rb", buffering=0) as file, open(to, "wb") as copy:
            copy.truncate(os.fstat(file.fileno()).st_size)
            for at, data in parts(file):
                copy.seek(at)
                copy.write(data)
        if is_same(image, to):
            return True
    return False


def cut(image, room, writers):
    """Returns copies of the image, each with the numbers that were synced before it and begun by
    then."""
    found = []
    for number in range(2 * CUTS):
        low = {kind: it.synced for kind, it in writers.items()}
        copy = f"{room}/copy {number}"
        if copied(image, copy):
            found.append((copy, low, {kind: it.begun for kind, it in writers.items()}))
        if len(found) == CUTS:
            break
        time.sleep(0.8)
    return found


def number_in(folder):
    ran = ldbtool("get", "--raw", folder, "6e")
    if ran.returncode not in (0, 4):
        raise Wrong(f"a get ends with status {ran.returncode}: {ran.stderr[:200]}")
    return int(ran.stdout) if ran.stdout else 0


def judge(folder, low, high):
    """Checks that the directory holds what was synced, mended where it is refused. Returns whether
    it was mended."""
    checked = ldbtool("check", folder)
    if checked.returncode:
        # (of a log above 16 MiB the refusal names a dry run, and doesn't read it)
        said = checked.stderr.decode()
        if not any(f"`ldbtool mend {flag}{folder}`" in said for flag in ("", "--dry-run ")):
            raise Wrong(f"a check says {said[:300]}")
        mended = ldbtool("mend", folder)
        checked = ldbtool("check", folder)
        if mended.returncode or checked.returncode:
            raise Wrong(f"mend says {mended.stdout} {mended.stderr[:300]}, and then a check {checked.stderr[:300]}")
        is_mended = True
    else:
        is_mended = False
    if not low <= number_in(folder) <= high:
        raise Wrong(f"batch {number_in(folder)} is the last, {low} was synced, and {high} begun")
    return is_mended


def judged(room, copies):
    """Judges each directory of each copy, and returns how many there were and how many were
    mended."""
    count = mended = 0
    for copy, low, high in copies:
        with Mounted(copy, f"{room}/left") as place:
            for kind in KINDS:
                folder = f"{room}/folder {count}"
                shutil.copytree(f"{place}/{kind}", folder)
                mended += judge(folder, low[kind], high[kind])
                shutil.rmtree(folder)
                count += 1
        os.remove(copy)
    return count, mended


def lost_power(name):
    """Tries it on this file system, and returns a line that says what was found. Raises Unable
    where it can't be tried."""
    if os.geteuid() != 0:
        raise Unable("this user isn't root")
    size, words, has_zeros = SYSTEMS[name]
    with tempfile.TemporaryDirectory(prefix=f"{name}-") as room:
        image = f"{room}/image"
        with open(image, "wb") as file:
            file.truncate(size << 20)
        system(*words, image)
        with Mounted(image, f"{room}/mounted") as place:
            copies, faults = written(image, room, place)
        if faults:
            raise Wrong(faults[0])
        count, mended = judged(room, copies)
    if has_zeros and not mended:
        raise Wrong(f"none of {count} directories ended in zeros")
    return f"{count} directories of {len(copies)} cuts on {name} hold what was synced, {mended} of them mended"


def written(image, room, place):
    """Writes the databases while copies are made, and returns those, and what was wrong."""
    for kind in KINDS:
        os.mkdir(f"{place}/{kind}")
    system("sync", "-f", place)
    writers = {kind: Writer(f"{place}/{kind}", kind) for kind in KINDS}
    for it in writers.values():
        it.start()
    time.sleep(2)
    copies = cut(image, room, writers)
    for it in writers.values():
        it.is_over = True
    for it in writers.values():
        it.join()
    return copies, [it.fault for it in writers.values() if it.fault]


def losses_on(names):
    """Returns a check of each of these file systems, with what it tries."""
    return [(f"power loss on {name}", functools.partial(lost_power, name)) for name in names]


def tried(checks, say):
    """Runs these checks, and returns how many of them passed and failed."""
    passed = failed = 0
    for what, check in checks:
        try:
            say(check())
            passed += 1
        except Unable as why:
            say(f"no {what} is tried: {why}")
        except Wrong as fault:
            say(f"WRONG  a {what}: {fault}")
            failed += 1
    return passed, failed


def main(names):
    if names[:1] in (["-h"], ["--help"]) or set(names) - set(SYSTEMS):
        return refuse(__doc__)
    if missing():
        return refuse(f"power: {missing()}")
    passed, failed = tried(losses_on(names or SYSTEMS), lambda line: print(line, flush=True))
    print(f"{passed} passed, {failed} failed")
    return 1 if failed else 0


if __name__ == "__main__":
    sys.exit(main(sys.argv[1:]))
