"""A sync that fails on a real ext4, for tools/faults/soak: its image lies in a tmpfs that is full
for a while. It needs root, a loop device and a tmpfs.

Linux drops what it couldn't write, and answers Ok to the next sync. So the next open has to write
the log anew: the image, copied behind a later synced write, has all batches.
"""
import os
import shutil
import subprocess
import tempfile

from listed import Wrong
from machine import word
from power import Mounted, Unable, system
from running import ldbtool, under_test

MB = 1 << 20
IMAGE, ROOM = 48 * MB, 64 * MB

# A loop device over a full tmpfs may say that it wrote what it didn't. Then nothing failed.
TRIES = 3


def fill(folder):
    """Takes all room that is left in a file system."""
    with open(f"{folder}/ballast", "wb", buffering=0) as file:
        try:
            while True:
                file.write(bytes(4096))
        except OSError:
            pass


def make_image(room, memory):
    """Makes a file system, all of its image's blocks in memory."""
    full = f"{room}/full"
    with open(full, "wb") as file:
        file.truncate(IMAGE)
    system("mkfs.ext4", "-q", "-F", "-b", "4096", full)
    with open(full, "rb") as file, open(f"{memory}/image", "wb") as image:
        while piece := file.read(MB):
            image.write(piece)
    os.remove(full)


def fail_sync(memory, place, folder):
    """Writes two batches while there is no room for them, the second one with sync. Returns whether
    that was refused."""
    with subprocess.Popen([under_test(), "run", folder], stdin=subprocess.PIPE, stdout=subprocess.PIPE, stderr=subprocess.DEVNULL, bufsize=0) as process:

        def give(line):
            process.stdin.write(f"{line}\n".encode())
            return process.stdout.readline().decode().strip()

        give("open any")
        # what is free in the file system takes no memory from then on
        system("sync", "-f", place)
        system("fstrim", place)
        fill(memory)
        give(f"write put 62 {word(os.urandom(150_000))}")
        answer = give("write sync put 63 33")
        process.stdin.close()
        process.stdout.read()
    os.remove(f"{memory}/ballast")
    return answer == "refused 2 Io"


def try_once(room, memory):
    """Returns whether a sync failed. If so, checks that the batch synced next is on the device."""
    make_image(room, memory)
    with Mounted(f"{memory}/image", f"{room}/mounted") as place:
        folder = f"{place}/db"
        os.mkdir(folder)
        ldbtool("put", folder, "61", "31")
        if not fail_sync(memory, place, folder):
            return False
        later = ldbtool("put", folder, "64", "34")
        if later.returncode:
            raise Wrong(f"a put after the failed sync is refused: {later.stderr[:300]}")
        held = ldbtool("export", folder).stdout
        shutil.copyfile(f"{memory}/image", f"{room}/copy")
    with Mounted(f"{room}/copy", f"{room}/left") as place:
        left = ldbtool("export", f"{place}/db")
    if left.stdout != held or b"put 64 34\n" not in held:
        raise Wrong(f"the device has {len(left.stdout)} of {len(held)} bytes of an export: {left.stderr[:300]}")
    return True


def failed_sync():
    """Tries it, and returns a line that says what was found. Raises Unable where it can't be
    tried."""
    if os.geteuid() != 0:
        raise Unable("this user isn't root")
    for _ in range(TRIES):
        with tempfile.TemporaryDirectory(prefix="full-") as room:
            memory = f"{room}/memory"
            os.mkdir(memory)
            system("mount", "-t", "tmpfs", "-o", f"size={ROOM}", "none", memory)
            try:
                if try_once(room, memory):
                    return "behind a failed sync on ext4 the next open wrote the log anew, and the device has it"
            finally:
                subprocess.run(["umount", memory], check=False)
    raise Unable(f"no sync failed in {TRIES} tries")
