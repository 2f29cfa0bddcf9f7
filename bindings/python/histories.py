"""Checks of the Python binding: histories.py [SEED]. Prints a line for each, or fails.

20,000 drawn operations beside a dict, with reopens; kills; errors. If plyvel is there, also turns
with LevelDB on one folder, and iterators beside plyvel's on the same pairs.
"""
import bisect
import contextlib
import itertools
import os
import random
import shutil
import signal
import subprocess
import sys
import tempfile
import threading

import wachuspi

try:
    import plyvel
except ImportError:
    plyvel = None

OPERATIONS = 2500
ME = os.path.abspath(__file__)


def drawn_key(draw):
    return b"%05d" % draw.randrange(3000)


def write_one(db, model, draw):
    key = drawn_key(draw)
    if draw.random() < .8:
        model[key] = draw.randbytes(draw.randrange(300))
        db.put(key, model[key])
    else:
        db.delete(key)
        model.pop(key, None)


def write_many(db, model, draw):
    with db.write_batch(transaction=True, sync=draw.random() < .02) as batch:
        for _ in range(draw.randrange(10)):
            key = drawn_key(draw)
            if draw.random() < .7:
                model[key] = draw.randbytes(20)
                batch.put(key, model[key])
            else:
                batch.delete(key)
                model.pop(key, None)


def seek(db, model, draw):
    key, ordered = drawn_key(draw), sorted(model)
    place = bisect.bisect_left(ordered, key)
    with db.raw_iterator() as it:
        it.seek(key)
        assert it.valid() == (place < len(ordered))
        if it.valid():
            assert it.item() == (ordered[place], model[ordered[place]])
            it.prev()
            assert it.valid() == (place > 0)
            if it.valid():
                assert it.key() == ordered[place - 1]


def walk(db, model, draw):
    start, stop = sorted((drawn_key(draw), drawn_key(draw)))
    reverse, with_start, with_stop = (draw.random() < .5 for _ in range(3))
    wanted = [it for it in sorted(model.items(), reverse=reverse)
              if start < it[0] < stop or with_start and it[0] == start or with_stop and it[0] == stop]
    if start == stop and not (with_start and with_stop):
        wanted = []
    with db.iterator(start=start, stop=stop, reverse=reverse, include_start=with_start,
                     include_stop=with_stop) as it:
        assert list(it) == wanted, (start, stop, reverse)


def history(db, model, draw, count):
    kept = []
    for _ in range(count):
        kind = draw.random()
        if kind < .4:
            write_one(db, model, draw)
        elif kind < .5:
            write_many(db, model, draw)
        elif kind < .85:
            key = drawn_key(draw)
            assert db.get(key) == model.get(key)
        elif kind < .92:
            seek(db, model, draw)
        elif kind < .94:
            walk(db, model, draw)
        elif kind < .96:
            kept.append((db.snapshot(), dict(model)))
        elif kept:
            snapshot, then = draw.choice(kept)
            key = drawn_key(draw)
            assert snapshot.get(key) == then.get(key)
    for snapshot, then in kept:
        assert dict(snapshot.iterator()) == then
        snapshot.close()


def with_leveldb(path, model, draw):
    """LevelDB reads what is there, and writes on."""
    with contextlib.closing(plyvel.DB(path, compression=None)) as db:
        assert dict(db.iterator()) == model
        for _ in range(500):
            write_one(db, model, draw)
        with db.write_batch() as batch:
            batch.put(b"by leveldb", b"%d" % len(model))
            model[b"by leveldb"] = b"%d" % len(model)
    plyvel_checked.append(path)


plyvel_checked = []


def drawn(path, seed):
    draw, model = random.Random(seed), {}
    for turn in range(8):
        with wachuspi.DB(path, create_if_missing=True, write_buffer_size=65536) as db:
            assert dict(db) == model
            history(db, model, draw, OPERATIONS)
            if turn % 3 == 2:
                db.compact_range()
                assert sum(db.tables(level) for level in range(7)) == 1
        assert wachuspi.check(path)
        if plyvel:
            with_leveldb(path, model, draw)
    assert not plyvel or len(plyvel_checked) == 8
    return f"{8 * OPERATIONS} drawn operations" + (", by turns with LevelDB" if plyvel else "")


def numbered(number):
    """The batch of a number: what a killed process writes."""
    draw = random.Random(number)
    return [(b"%03d" % draw.randrange(200), b"%d" % number * draw.randrange(1, 40)) for _ in range(5)]


def writer(path, first):
    """Writes batches one after the other, and says the number of each that was accepted."""
    with wachuspi.DB(path, create_if_missing=True, write_buffer_size=4096) as db:
        for number in itertools.count(first):
            with db.write_batch() as batch:
                for key, value in numbered(number):
                    batch.put(key, value)
            sys.stdout.write(f"{number}\n")
            sys.stdout.flush()


def kills(path, seed):
    """Kills a writer ten times: each batch that it said is there, and at most one more, whole."""
    draw, model, number = random.Random(seed), {}, 0
    for _ in range(10):
        with subprocess.Popen([sys.executable, ME, "--writer", path, str(number)], stdout=subprocess.PIPE) as child:
            most = number + draw.randrange(1, 400)
            for line in child.stdout:
                model.update(numbered(number))
                number = int(line) + 1
                if number >= most:
                    child.send_signal(signal.SIGKILL)
                    break
            for line in child.stdout:
                if line.endswith(b"\n"):
                    model.update(numbered(number))
                    number = int(line) + 1
        with wachuspi.DB(path) as db:
            found = dict(db)
        if found != model:
            model.update(numbered(number))
            number += 1
            assert found == model, "a batch is there in part, or one that was accepted is gone"
    return f"10 kills of a process that had written {number} batches"


def refused(kind, name, call):
    try:
        call()
    except kind as error:
        assert name in (None, getattr(error, "name", None)), error
        return
    raise AssertionError(f"{kind.__name__} {name} was to come")


def errors(path):
    refused(wachuspi.IOError, "NoDatabase", lambda: wachuspi.DB(path))
    refused(wachuspi.IOError, "NoDatabase", lambda: wachuspi.DB(path + "/not/there"))
    db = wachuspi.DB(path, create_if_missing=True)
    refused(wachuspi.IOError, "Locked", lambda: wachuspi.DB(path))
    refused(wachuspi.Error, "Misused", lambda: wachuspi.DB(os.fsdecode(b"not utf-8: \xff")))
    refused(wachuspi.Error, "KeyTooLong", lambda: db.put(b"k" * 70000, b""))
    refused(TypeError, None, lambda: db.put("text", b""))
    long = os.urandom(300_000)
    db.put(b"long", long)
    db.put(b"", b"")
    assert db.get(b"long") == long and db.get(b"") == b"" and list(db) == [(b"", b""), (b"long", long)]
    assert db.get(b"missing") is None and db.get(b"missing", b"d") == b"d"
    iterator, raw, snapshot = db.iterator(), db.raw_iterator(), db.snapshot()
    said = []
    other = threading.Thread(target=lambda: said.append(wrong_thread(db)))
    other.start()
    other.join()
    assert said == [True]
    db.close()
    db.close()
    assert db.closed
    refused(wachuspi.Error, None, lambda: db.get(b"long"))
    refused(wachuspi.IteratorInvalidError, None, lambda: next(iterator))
    refused(wachuspi.IteratorInvalidError, None, raw.seek_to_first)
    refused(wachuspi.Error, None, lambda: snapshot.get(b"long"))
    snapshot.close()
    refused(wachuspi.IOError, "Exists", lambda: wachuspi.DB(path, error_if_exists=True))
    with open(os.path.join(path, "CURRENT"), "w", encoding="utf-8") as file:
        file.write("nonsense\n")
    refused(wachuspi.CorruptionError, "Corrupt", lambda: wachuspi.DB(path))
    refused(wachuspi.CorruptionError, "Corrupt", lambda: wachuspi.check(path))
    return "errors"


def mended(path):
    """Zeros at the end of the MANIFEST, as a power loss can leave them."""
    assert wachuspi.mend(".") == []
    with wachuspi.DB(path, create_if_missing=True) as db:
        db.put(b"apple", b"red")
        refused(wachuspi.IOError, "Locked", lambda: wachuspi.mend(path))
    with open(f"{path}/CURRENT", encoding="utf-8") as file:
        name = file.read().rstrip()
    with open(f"{path}/{name}", "ab") as file:
        whole = file.tell()
        file.write(bytes(9))
    refused(wachuspi.CorruptionError, "Corrupt", lambda: wachuspi.DB(path))
    wanted = [(name, whole, whole + 9, 9)]
    assert wachuspi.mend(path, dry_run=True) == wanted and wachuspi.mend(path, holes=True) == wanted
    with wachuspi.DB(path) as db:
        assert db.get(b"apple") == b"red"
    assert wachuspi.check(path)
    return "a power loss is mended"


def wrong_thread(db):
    try:
        db.get(b"long")
    except wachuspi.Error:
        return True
    return False


def moves(module, path):
    """What an iterator of a module answers on a walk back and forth."""
    out, draw = [], random.Random(5)
    with contextlib.closing(module.DB(path, compression=None)) as db:
        ways = [{}, {"prefix": b"01"}, {"start": b"005", "stop": b"02"}, {"reverse": True}, {"prefix": b"02", "reverse": True},
                {"start": b"005", "include_start": False}, {"stop": b"02", "include_stop": True, "include_value": False},
                {"start": b"9"}, {"stop": b"0"}, {"include_key": False, "reverse": True, "start": b"01"}]
        for way in ways:
            with db.iterator(**way) as it:
                # (after a jump of a reverse iterator plyvel goes on below the start)
                jumps = not way.get("reverse") or len(way) == 1
                for _ in range(60):
                    out.append(move(it, draw, jumps))
        inner = db.prefixed_db(b"01")
        out += [list(inner), list(inner.iterator(reverse=True, stop=b"3")), inner.get(b"000")]
        with inner.snapshot() as snapshot:
            out.append(list(snapshot.iterator(prefix=b"2")))
    return out


def move(it, draw, jumps):
    kind = draw.randrange(8 if jumps else 6)
    try:
        if kind < 3:
            return next(it)
        if kind < 6:
            return it.prev()
        if kind == 6:
            # (plyvel's prev after a seek below the start leaves the range)
            it.seek(b"%04d" % draw.randrange(300))
            return next(it)
        return draw.choice([it.seek_to_start, it.seek_to_stop])()
    except StopIteration:
        return "end"


def beside_plyvel(path):
    with wachuspi.DB(path, create_if_missing=True) as db:
        for n in range(0, 3000, 7):
            db.put(b"%05d" % n, b"v%d" % n)
    ours, theirs = moves(wachuspi, path), moves(plyvel, path)
    for n, (a, b) in enumerate(zip(ours, theirs)):
        assert a == b, (n, a, b)
    return f"{len(ours)} answers as plyvel's"


def main(words):
    if words[:1] == ["--writer"]:
        writer(words[1], int(words[2]))
    seed = int(words[0]) if words else 1
    with tempfile.TemporaryDirectory(prefix="wachuspi-") as room:
        print(drawn(f"{room}/drawn", seed))
        print(kills(f"{room}/kills", seed))
        os.mkdir(f"{room}/errors")
        print(errors(f"{room}/errors"))
        print(mended(f"{room}/mended"))
        if plyvel:
            print(beside_plyvel(f"{room}/beside"))
        shutil.rmtree(f"{room}/drawn")
    return 0


if __name__ == "__main__":
    sys.exit(main(sys.argv[1:]))
