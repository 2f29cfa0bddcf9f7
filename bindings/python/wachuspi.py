"""A key-value database in LevelDB's format, with plyvel's names. README.md says what differs."""
import ctypes as c
import ctypes.util
import os
import threading

__all__ = ["DB", "CorruptionError", "Error", "IOError", "IteratorInvalidError", "check", "mend",
           "open"]

_VERSION = 1
_SYNC, _WORK = 1, 2
_NOT_FOUND = -1
_CORRUPT, _NO_DATABASE, _WORK_REFUSED = 5, 3, 256
_ROOM = 1 << 16


class _Handle(c.Structure):
    _fields_ = [("at", c.c_void_p), ("holds", c.c_bool)]


class _Options(c.Structure):
    _fields_ = [(it, c.c_uint64) for it in (
        "write_buffer", "block_bytes", "file_bytes", "level0_files", "base_bytes", "cache_blocks")]


class _Pair(c.Structure):
    _fields_ = [("key_length", c.c_size_t), ("value_length", c.c_size_t)]


class _Filled(c.Structure):
    _fields_ = [("used", c.c_size_t), ("pairs", c.c_size_t)]


class _Trouble(c.Structure):
    _fields_ = [("has", c.c_uint32), ("code", c.c_int32)] + [(it, c.c_uint64) for it in (
        "at", "found", "wanted", "count", "name_length", "words_length")] + [
        ("name", c.c_uint8 * 48), ("words", c.c_uint8 * 160)]


class _Cut(c.Structure):
    _fields_ = [("kind", c.c_uint32)] + [(it, c.c_uint64) for it in (
        "number", "at", "length", "zeros")]


_H, _B, _N, _P = c.POINTER(_Handle), c.c_char_p, c.c_size_t, c.c_void_p
_U32, _U64, _I32 = c.c_uint32, c.c_uint64, c.c_int32
_ID, _LENGTH = c.POINTER(c.c_uint64), c.POINTER(c.c_size_t)
_MOVE = [_H, _U64, _P, _N, c.POINTER(_Pair)]
_CALLS = {
    "version": (_U32, []),
    "default_options": (None, [c.POINTER(_Options)]),
    "open": (_I32, [_B, _N, c.POINTER(_Options), _U32, _H, c.POINTER(_Trouble)]),
    "close": (_I32, [_H]),
    "put": (_I32, [_H, _B, _N, _B, _N, _U32]),
    "delete": (_I32, [_H, _B, _N, _U32]),
    "batch_put": (_I32, [_H, _B, _N, _B, _N]),
    "batch_delete": (_I32, [_H, _B, _N]),
    "batch_free": (None, [_H]),
    "write": (_I32, [_H, _H, _U32]),
    "get": (_I32, [_H, _B, _N, _U64, _P, _N, _LENGTH]),
    "snapshot": (_I32, [_H, _ID]),
    "release": (_I32, [_H, _U64]),
    "iter_new": (_I32, [_H, _U64, _ID]),
    "iter_free": (_I32, [_H, _U64]),
    **{"iter_" + it: (_I32, _MOVE) for it in ("first", "last", "next", "prev", "pair")},
    "iter_seek": (_I32, [_H, _U64, _B, _N, _P, _N, c.POINTER(_Pair)]),
    "iter_fill": (_I32, [_H, _U64, _U32, _P, _N, c.POINTER(_Filled)]),
    "work": (_I32, [_H, _U32, c.POINTER(_U32)]),
    "settle": (_I32, [_H, _U32]),
    "compact": (_I32, [_H, _U32]),
    "tables": (c.c_int64, [_H, _U32]),
    "last_trouble": (_I32, [_H, c.POINTER(_Trouble)]),
    "explain": (_N, [_I32, _P, _N]),
    "check": (_I32, [_B, _N, c.POINTER(_Trouble)]),
    "mend": (_I32, [_B, _N, _U32, c.POINTER(_Cut), _N, _LENGTH, c.POINTER(_Trouble)]),
}


def _library():
    here = os.path.join(os.path.dirname(os.path.abspath(__file__)), "../../build/libwachuspi.so")
    named = os.environ.get("WACHUSPI") or (here if os.path.exists(here) else None)
    library = c.CDLL(named or ctypes.util.find_library("wachuspi") or "libwachuspi.so")
    for name, (result, words) in _CALLS.items():
        call = getattr(library, "wch_" + name)
        call.restype, call.argtypes = result, words
    if library.wch_version() != _VERSION:
        raise ImportError("libwachuspi.so has another version of the interface")
    return library


_lib = _library()


class Error(Exception):
    """A call that failed. `name` is the error's name, `file` the file that it came from, or ''."""

    def __init__(self, words, code=0, name="", file=""):
        super().__init__(words)
        self.code, self.name, self.file = code, name, file


class IOError(Error, OSError):  # pylint: disable=redefined-builtin
    """The folder or the system failed, or the database is locked, missing or there already."""


class CorruptionError(Error):
    """A file contradicts the format."""


class IteratorInvalidError(Error):
    """The iterator or its database is closed."""


def _error(code, trouble):
    room = c.create_string_buffer(32)
    length = _lib.wch_explain(code, room, 32)
    name = room.raw[:length].decode()
    file = bytes(trouble.name[:trouble.name_length]).decode(errors="replace")
    words = bytes(trouble.words[:trouble.words_length]).decode(errors="replace")
    kind = {_CORRUPT: CorruptionError}.get(code, IOError if code in (2, 3, 4, 7, 18) else Error)
    return kind(": ".join(it for it in (name, file, words) if it), code, name, file)


def _bytes(value):
    if not isinstance(value, (bytes, bytearray, memoryview)):
        raise TypeError(f"bytes are wanted, and not {type(value).__name__}")
    return bytes(value)


def _after(prefix):
    """The first key behind all that begin with a prefix, or None."""
    while prefix:
        if prefix[-1] < 255:
            return prefix[:-1] + bytes([prefix[-1] + 1])
        prefix = prefix[:-1]
    return None


class _Closing:
    """What closes itself at the end of a `with`."""

    def __enter__(self):
        return self

    def __exit__(self, *_why):
        self.close()


class _Keys:
    """What a DB and a PrefixedDB share. `_base` is the database, `_outer` the keys' prefix."""

    def write_batch(self, *, transaction=False, sync=False):
        """A batch; as a context manager it writes itself at the end."""
        return WriteBatch(self._base, self._outer, transaction, sync)

    def snapshot(self):
        """What is read now, kept."""
        return Snapshot(self._base, self._outer)

    def iterator(self, **how):
        """An iterator over a range: the words are those of `Iterator`."""
        return Iterator(self._base, 0, self._outer, **how)

    def __iter__(self):
        return self.iterator()

    def raw_iterator(self):
        """A place among the pairs, which is moved by hand."""
        return RawIterator(self._base, 0, self._outer)

    def prefixed_db(self, prefix):
        """The keys that begin with a prefix, without it."""
        return PrefixedDB(self._base, self._outer + _bytes(prefix))


def check(name):
    """Whether a folder that no process has open has a database; an Error if it isn't consistent."""
    path, trouble = os.fsencode(name), _Trouble()
    code = _lib.wch_check(path, len(path), c.byref(trouble))
    if code > 0:
        raise _error(code, trouble)
    return code == 0


def mend(name, *, dry_run=False, holes=False):
    """Cuts off the zeros that a power loss can leave at the end of the MANIFEST and of logs.
    Returns of each file that it cut: its name, how many bytes stay, how many it had, how many zeros
    it ended with."""
    path, trouble, count, room = os.fsencode(name), _Trouble(), c.c_size_t(), 1024
    cuts = (_Cut * room)()
    code = _lib.wch_mend(path, len(path), dry_run | holes << 1, cuts, room,
                         c.byref(count), c.byref(trouble))
    if code > 0:
        raise _error(code, trouble)
    return [("MANIFEST-%06d" % it.number if it.kind == 2 else "%06d.log" % it.number,
             it.at, it.length, it.zeros) for it in cuts[:count.value]]


class DB(_Keys, _Closing):
    """An open database. It stays on the thread that opened it."""

    def __init__(self, name, *, create_if_missing=False, error_if_exists=False, comparator=None,
                 write_buffer_size=None, block_size=None, max_file_size=None, **_ignored):
        if comparator is not None:
            raise NotImplementedError("the order of keys is LevelDB's own")
        self.name, self._handle, self._outer = name, _Handle(), b""
        self._thread = threading.get_ident()
        options, trouble, path = _Options(), _Trouble(), os.fsencode(name)
        _lib.wch_default_options(c.byref(options))
        for field, value in (("write_buffer", write_buffer_size), ("block_bytes", block_size),
                             ("file_bytes", max_file_size)):
            if value is not None:
                setattr(options, field, value)
        if create_if_missing and not os.path.isdir(name):
            os.mkdir(name)
        mode = 1 if error_if_exists else 2 if create_if_missing else 0
        code = _lib.wch_open(path, len(path), c.byref(options), mode, c.byref(self._handle),
                             c.byref(trouble))
        if code:
            raise _error(code, trouble)

    @property
    def _base(self):
        return self

    def _at(self):
        if not self._handle.holds:
            raise Error("the database is closed")
        if threading.get_ident() != self._thread:
            raise Error("a database stays on the thread that opened it")
        return c.byref(self._handle)

    def _done(self, code):
        if code:
            trouble = _Trouble()
            _lib.wch_last_trouble(c.byref(self._handle), c.byref(trouble))
            raise _error(code, trouble)

    @property
    def closed(self):
        """Whether it is closed."""
        return not self._handle.holds

    def close(self):
        """Closes the database. Its snapshots and iterators are of no use any more."""
        if self._handle.holds:
            _lib.wch_close(self._at())

    def __del__(self):
        if getattr(self, "_handle", None) is not None and self._handle.holds:
            if threading.get_ident() == self._thread:
                _lib.wch_close(c.byref(self._handle))

    def put(self, key, value, *, sync=False):
        """Writes a key and its value."""
        key, value = _bytes(key), _bytes(value)
        self._done(_lib.wch_put(self._at(), key, len(key), value, len(value), _WORK | sync))

    def delete(self, key, *, sync=False):
        """Deletes a key, whether or not it is there."""
        key = _bytes(key)
        self._done(_lib.wch_delete(self._at(), key, len(key), _WORK | sync))

    def get(self, key, default=None, *, verify_checksums=True, fill_cache=True):
        """The value of a key, or the default."""
        return self._get(key, default, 0)

    def _get(self, key, default, snapshot):
        key, length, size = _bytes(key), c.c_size_t(), 256
        while True:
            room = c.create_string_buffer(size)
            code = _lib.wch_get(self._at(), key, len(key), snapshot, room, size, c.byref(length))
            if code == _NOT_FOUND:
                return default
            self._done(code)
            if length.value <= size:
                return room.raw[:length.value]
            size = length.value

    def compact_range(self, start=None, stop=None):
        """Compacts everything."""
        self._done(_lib.wch_compact(self._at(), 7))
        self._done(_lib.wch_settle(self._at(), 100_000))

    def settle(self, budget=100_000):
        """Works until there is nothing to do."""
        self._done(_lib.wch_settle(self._at(), budget))

    def work(self, budget=1000):
        """One piece of work; tells whether there was any."""
        idle = c.c_uint32()
        self._done(_lib.wch_work(self._at(), budget, c.byref(idle)))
        return not idle.value

    def tables(self, level):
        """How many tables a level has."""
        count = _lib.wch_tables(self._at(), level)
        if count < 0:
            raise ValueError("levels are 0 to 6")
        return count


class PrefixedDB(_Keys):
    """The keys of a database that begin with a prefix, without it."""

    def __init__(self, db, prefix):
        self.db, self.prefix, self._base, self._outer = db, prefix, db, prefix

    def get(self, key, default=None, **_how):
        """The value of a key, or the default."""
        return self.db._get(self.prefix + _bytes(key), default, 0)

    def put(self, key, value, *, sync=False):
        """Writes a key and its value."""
        self.db.put(self.prefix + _bytes(key), value, sync=sync)

    def delete(self, key, *, sync=False):
        """Deletes a key."""
        self.db.delete(self.prefix + _bytes(key), sync=sync)


class WriteBatch(_Closing):
    """Operations that are written together, or not at all."""

    def __init__(self, db, prefix, transaction, sync):
        self._db, self._prefix, self._handle = db, prefix, _Handle()
        self._transaction, self._sync = transaction, sync

    def put(self, key, value):
        """Adds a put."""
        key, value = self._prefix + _bytes(key), _bytes(value)
        self._added(_lib.wch_batch_put(c.byref(self._handle), key, len(key), value, len(value)))

    def delete(self, key):
        """Adds a delete."""
        key = self._prefix + _bytes(key)
        self._added(_lib.wch_batch_delete(c.byref(self._handle), key, len(key)))

    @staticmethod
    def _added(code):
        if code:
            raise _error(code, _Trouble())

    def clear(self):
        """Removes all operations."""
        _lib.wch_batch_free(c.byref(self._handle))

    close = clear

    def write(self):
        """Writes all operations or none."""
        db = self._db
        db._done(_lib.wch_write(db._at(), c.byref(self._handle), _WORK | self._sync))

    def __exit__(self, kind, *_why):
        if kind is None or not self._transaction:
            self.write()
        self.clear()

    def __del__(self):
        self.clear()


class Snapshot(_Closing):
    """What was read when it was made."""

    def __init__(self, db, prefix):
        self._db, self._prefix, self._id, made = db, prefix, 0, c.c_uint64()
        db._done(_lib.wch_snapshot(db._at(), c.byref(made)))
        self._id = made.value

    def _kept(self):
        if not self._id:
            raise Error("the snapshot is closed")
        return self._id

    def get(self, key, default=None, **_how):
        """The value of a key, or the default."""
        return self._db._get(self._prefix + _bytes(key), default, self._kept())

    def iterator(self, **how):
        """An iterator, as that of a DB."""
        return Iterator(self._db, self._kept(), self._prefix, **how)

    def __iter__(self):
        return self.iterator()

    def raw_iterator(self):
        """A place among the pairs, which is moved by hand."""
        return RawIterator(self._db, self._kept(), self._prefix)

    def close(self):
        """Releases it."""
        if self._id and not self._db.closed:
            _lib.wch_release(self._db._at(), self._id)
        self._id = 0

    def __del__(self):
        if threading.get_ident() == self._db._thread:
            self.close()


class _Cursor:
    """An iterator of the C library."""

    def __init__(self, db, snapshot):
        self.db, self.id, made = db, 0, c.c_uint64()
        db._done(_lib.wch_iter_new(db._at(), snapshot, c.byref(made)))
        self.id = made.value

    def _at(self):
        if not self.id or self.db.closed:
            raise IteratorInvalidError("the iterator is closed")
        return self.db._at()

    def move(self, name, *key):
        """The pair to which the call of this name leads, or None."""
        words = (key[0], len(key[0])) if key else ()
        call, size, pair = getattr(_lib, "wch_iter_" + name), 256, _Pair()
        while True:
            room = c.create_string_buffer(size)
            code = call(self._at(), self.id, *words, room, size, c.byref(pair))
            if code == _NOT_FOUND:
                return None
            self.db._done(code)
            behind = pair.key_length + pair.value_length
            if behind <= size:
                return room.raw[:pair.key_length], room.raw[pair.key_length:behind]
            call, words, size = _lib.wch_iter_pair, (), behind

    def fill(self, room, backwards):
        """The pair on which it stands and those behind it, as many as have room."""
        filled, pairs, at = _Filled(), [], 0
        code = _lib.wch_iter_fill(self._at(), self.id, backwards, room, len(room), c.byref(filled))
        if code != _NOT_FOUND:
            self.db._done(code)
        raw = room.raw[:filled.used]
        for _ in range(filled.pairs):
            key = at + 8
            value = key + int.from_bytes(raw[at:at + 4], "little")
            end = value + int.from_bytes(raw[at + 4:at + 8], "little")
            pairs.append((raw[key:value], raw[value:end]))
            at = end
        return pairs

    def close(self):
        """Releases it."""
        if self.id and not self.db.closed and threading.get_ident() == self.db._thread:
            _lib.wch_iter_free(c.byref(self.db._handle), self.id)
        self.id = 0

    def __del__(self):
        self.close()


class Iterator(_Closing):
    """The pairs of a range, one after the other; `prev` and `seek` move it, as plyvel's does.

    It stands between two pairs: `next` answers the one behind, `prev` the one in front.
    """

    def __init__(self, db, snapshot, outer, *, reverse=False, start=None, stop=None,
                 include_start=True, include_stop=False, prefix=None, include_key=True,
                 include_value=True, verify_checksums=True, fill_cache=True):
        if prefix is not None and (start is not None or stop is not None):
            raise TypeError("prefix goes with neither start nor stop")
        self._outer, self._reverse, self._shows = outer, reverse, (include_key, include_value)
        if prefix is not None:
            start, include_start, include_stop = _bytes(prefix), True, False
            stop = _after(outer + start)
        elif stop is not None:
            stop = outer + _bytes(stop)
        else:
            stop, include_stop = _after(outer), False
        self._lower = (outer + _bytes(start or b""), include_start)
        self._upper = (stop, include_stop)
        self._cursor = _Cursor(db, snapshot)
        self._room, self._back = None, reverse
        self._stand(None if reverse else self._begin())

    def _within(self, key):
        (lower, with_lower), (upper, with_upper) = self._lower, self._upper
        if key < lower or key == lower and not with_lower:
            return False
        return upper is None or key < upper or key == upper and with_upper

    def seek_to_start(self):
        """Moves to the start: the end of lower keys, also of a reverse iterator."""
        self._stand(self._begin())

    def seek_to_stop(self):
        """Moves to the stop: the end of higher keys."""
        self._stand(None)

    def _stand(self, gap):
        """Moves in front of the first pair at this key or behind it; None is the stop."""
        self._gap, self._ahead = gap, []

    def _begin(self):
        key, with_key = self._lower
        return key if with_key else key + b"\0"

    def _behind_all(self):
        """The first key behind the range, or None."""
        upper, with_upper = self._upper
        return upper + b"\0" if upper is not None and with_upper else upper

    def _found(self, back):
        """The first pair at the gap or behind it, or the last one in front of it."""
        if not back:
            return None if self._gap is None else self._cursor.move("seek", self._gap)
        end = self._behind_all() if self._gap is None else self._gap
        if end is None or self._cursor.move("seek", end) is None:
            return self._cursor.move("last")
        return self._cursor.move("prev")

    def _shown(self, pair):
        key, value = pair[0][len(self._outer):], pair[1]
        with_key, with_value = self._shows
        return ((key, value) if with_value else key) if with_key else value if with_value else None

    def _read_ahead(self, found, backwards):
        """The pair on which the cursor stands and some more, the last one first."""
        if self._room is None:
            self._room = c.create_string_buffer(_ROOM)
        return self._cursor.fill(self._room, backwards)[::-1] or [found]

    def __iter__(self):
        return self

    def _goes(self, back):
        if back != self._back:
            self._ahead, self._back = [], back
        if not self._ahead:
            found = self._found(back)
            self._ahead = [] if found is None else self._read_ahead(found, back)
        if not self._ahead or not self._within(self._ahead[-1][0]):
            raise StopIteration
        pair = self._ahead.pop()
        self._gap = pair[0] if back else pair[0] + b"\0"
        return self._shown(pair)

    def __next__(self):
        return self._goes(self._reverse)

    next = __next__

    def prev(self):
        """The pair on the other side."""
        return self._goes(not self._reverse)

    def seek(self, key):
        """Moves in front of the first pair at a key or behind it."""
        key = self._outer + _bytes(key)
        begin, end = self._begin(), self._behind_all()
        self._stand(begin if key < begin else None if end is not None and key >= end else key)

    def close(self):
        """Releases it."""
        self._cursor.close()
        self._ahead = []


class RawIterator(_Closing):
    """A place among the pairs, which is moved by hand, as LevelDB's own."""

    def __init__(self, db, snapshot, outer):
        self._cursor, self._pair, self._outer = _Cursor(db, snapshot), None, outer

    def _to(self, pair):
        self._pair = pair if pair is not None and pair[0].startswith(self._outer) else None

    def valid(self):
        """Whether it stands on a pair."""
        return self._pair is not None

    def seek_to_first(self):
        """Moves to the first pair."""
        self._to(self._cursor.move("seek", self._outer))

    def seek_to_last(self):
        """Moves to the last pair."""
        end = _after(self._outer)
        behind = None if end is None else self._cursor.move("seek", end)
        self._to(self._cursor.move("last" if behind is None else "prev"))

    def seek(self, key):
        """Moves to the first pair at a key or behind it."""
        self._to(self._cursor.move("seek", self._outer + _bytes(key)))

    def next(self):
        """Moves to the next pair."""
        self.item()
        self._to(self._cursor.move("next"))

    def prev(self):
        """Moves to the pair before."""
        self.item()
        self._to(self._cursor.move("prev"))

    def item(self):
        """The key and the value."""
        if self._pair is None:
            raise IteratorInvalidError("the iterator stands nowhere")
        return self._pair[0][len(self._outer):], self._pair[1]

    def key(self):
        """The key."""
        return self.item()[0]

    def value(self):
        """The value."""
        return self.item()[1]

    def close(self):
        """Releases it."""
        self._cursor.close()
        self._pair = None


open = DB  # pylint: disable=redefined-builtin
