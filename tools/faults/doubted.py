"""Checks of tools/faults/refusals: a log whose sync was refused is written anew by the next open,
whichever process that is, and a log whose sync wasn't is left as it is.

The shim refuses a sync and does nothing, as Linux does once it has dropped what it couldn't write;
the next sync is answered Ok, and may keep nothing. So the open has to copy the log: what it does is
recorded call by call (recorded.py).
"""
import os
import tempfile
from collections import Counter

from listed import Wrong
from recorded import Moved, Opened, Recording, Synced, Wrote, files_in
from running import under_test
from shims import Run

BEGIN = "open any; put 61 31; write sync put 62 32; put 63 33; work 9; write sync put 64 34; close"
AGAIN = "open any; get 61; get 62; close"


def lines_of(script):
    return "".join(f"{line}\n" for line in script.split("; ")).encode()


def marked(folder):
    """Returns the logs that a temporary file marks."""
    names = set(os.listdir(folder))
    return sorted(name for name in names if name.endswith(".log") and mark_of(name) in names)


def mark_of(log):
    return log.removesuffix(".log") + ".dbtmp"


def copies_in(recording, calls):
    """Returns the logs that were written anew, and checks that each copy was synced whole before it
    took the log's name, and the folder after that."""
    found = []
    for at, call in enumerate(calls):
        if not isinstance(call, Moved) or not call.new.endswith(".log"):
            continue
        made = next((it.file for it in calls[:at] if isinstance(it, Opened) and it.name == call.old), recording.start.get(call.old, (None,))[0])
        last = [it for it in calls[:at] if isinstance(it, (Wrote, Synced)) and it.file == made]
        if call.old != mark_of(call.new) or not last or not isinstance(last[-1], Synced):
            raise Wrong(f"{call.new} was replaced by {call.old}, which wasn't synced")
        if Synced(recording.inode) not in calls[at:]:
            raise Wrong(f"the new name {call.new} wasn't synced")
        found.append(call.new)
    return sorted(found)


def want_anew(shim, room, folder):
    """Opens a folder, and checks that each log which is marked, and no other, is written anew as it
    was. Returns how many are."""
    logs, before = marked(folder), files_in(folder)
    with tempfile.TemporaryDirectory(prefix="record-", dir=room) as record:
        recording = Recording(shim, folder, f"{record}/calls")
        recording.run([under_test(), "run"], AGAIN.split("; "))
        calls = recording.calls()
    found, after = copies_in(recording, calls), files_in(folder)
    if recording.answers[0] != "ok" or marked(folder):
        raise Wrong(f"the open is answered {recording.answers[0]!r}, and {marked(folder)} are marked")
    kept = {name: before[name][1] == after[name][1] for name in logs if name in after}
    if found != logs or not all(kept.values()):
        raise Wrong(f"{logs} were marked, {found} were written anew, with the same bytes: {kept}")
    return len(found)


def try_each(failing, recording, room):
    """Refuses each call of a session in turn, and opens what is left by another process."""
    with tempfile.TemporaryDirectory(dir=room) as folder:
        count = Run(failing, [under_test(), "run", folder], 0, lines_of(BEGIN), FOLDER=folder).made
    seen = Counter()
    for number in range(1, count + 1):
        with tempfile.TemporaryDirectory(dir=room) as folder:
            Run(failing, [under_test(), "run", folder], number, lines_of(BEGIN), FOLDER=folder)
            if not os.path.exists(f"{folder}/CURRENT"):
                continue
            try:
                seen[want_anew(recording, room, folder)] += 1
            except Wrong as fault:
                raise Wrong(f"behind call {number} of {count}: {fault}") from fault
    if not seen[1] or not seen[0]:
        raise Wrong(f"of {count} refused calls, by how many logs are written anew then: {dict(seen)}")
    return f"{seen[1]} of {count} refused calls have a log written anew, by another process"


def try_same(failing, recording, room):
    """Refuses each call of a session that closes and opens again, in turn. The log of a refused
    sync is written anew by the same process."""
    script, found = f"{BEGIN}; {AGAIN}", 0
    with tempfile.TemporaryDirectory(dir=room) as folder:
        count = Run(failing, [under_test(), "run", folder], 0, lines_of(script), FOLDER=folder).made
    for number in range(1, count + 1):
        with tempfile.TemporaryDirectory(dir=room) as folder, tempfile.TemporaryDirectory(dir=room) as record:
            watched = Recording(recording, folder, f"{record}/calls")
            words = {**watched.environment, "LD_PRELOAD": f"{recording}:{failing}"}
            Run(failing, [under_test(), "run", folder], number, lines_of(script), **{name: words[name] for name in ("FOLDER", "RECORD_FILE", "LD_PRELOAD")})
            found += len(copies_in(watched, watched.calls()))
            if marked(folder) and found == 0:
                raise Wrong(f"behind call {number} of {count}: {marked(folder)} are marked, and weren't written anew")
    if not found:
        raise Wrong(f"in none of {count} runs a log was written anew")
    return f"in {count} runs with a refused call {found} logs were written anew, by the same process"
