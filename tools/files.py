"""Makes files of a LevelDB directory by hand from the format (docs/FORMATS.md), for the checks of
tools/checks/program."""
import os
import struct
from dataclasses import dataclass, field

CRC32C = 0x82F63B78
MASK = 0xA282EAD8
PUT = 1


def shifted(register):
    for _ in range(8):
        register = register >> 1 ^ (CRC32C if register & 1 else 0)
    return register


SHIFTED = [shifted(it) for it in range(256)]


def crc32c(text):
    register = 0xFFFFFFFF
    for byte in text:
        register = register >> 8 ^ SHIFTED[(register ^ byte) & 0xFF]
    return register ^ 0xFFFFFFFF


assert crc32c(b"123456789") == 0xE3069283


def masked(text):
    """Returns the checksum as files store it."""
    found = crc32c(text)
    return struct.pack("<I", ((found >> 15 | found << 17) + MASK) & 0xFFFFFFFF)


def varint(number):
    found = b""
    while number >= 128:
        found += bytes([number % 128 + 128])
        number //= 128
    return found + bytes([number])


def string(text):
    return varint(len(text)) + text


def spelled(text):
    """Returns the bytes of a word of a script."""
    return b"" if text == "-" else bytes.fromhex(text)


def record(payload):
    """Returns a log record that fits one block, at the block's start or after others in it."""
    return masked(b"\x01" + payload) + struct.pack("<HB", len(payload), 1) + payload


BLOCK = 32_768


def log_of(payloads):
    """Returns a log of these records, of any length. Each is cut into fragments where blocks
    end."""
    found = bytearray()
    for payload in payloads:
        kinds = iter(b"\x02" + b"\x03" * (len(payload) // (BLOCK - 7) + 1))
        left, whole = payload, True
        while whole or left:
            room = BLOCK - len(found) % BLOCK
            if room < 7:
                found += bytes(room)
                continue
            data, left = left[: room - 7], left[room - 7 :]
            kind = next(kinds) if left else 1 if whole else 4
            found += masked(bytes([kind]) + data) + struct.pack("<HB", len(data), kind) + data
            whole = False
    return bytes(found)


def log_file(batches):
    """Returns a log of batches, each a sequence and a list of keys with values, None for a
    delete."""
    found = b""
    for sequence, operations in batches:
        batch = struct.pack("<QI", sequence, len(operations))
        for key, value in operations:
            batch += b"\x00" + string(spelled(key)) if value is None else b"\x01" + string(spelled(key)) + string(spelled(value))
        found += record(batch)
    assert len(found) < 32_768
    return found


def internal_key(key, sequence):
    return spelled(key) + struct.pack("<Q", sequence << 8 | PUT)


@dataclass
class Manifest:
    """Returns a MANIFEST of one edit. A table is its level, number, size, and its least and
    greatest key, each with its sequence. The order of keys has a name, or none."""

    log: int
    next_file: int
    last_sequence: int = 0
    tables: list = field(default_factory=list)
    number: int = 1
    comparator: str | None = "leveldb.BytewiseComparator"

    def file(self):
        edit = b"" if self.comparator is None else b"\x01" + string(self.comparator.encode())
        edit += b"\x02" + varint(self.log) + b"\x03" + varint(self.next_file) + b"\x04" + varint(self.last_sequence)
        for level, number, size, least, greatest in self.tables:
            edit += b"\x07" + varint(level) + varint(number) + varint(size)
            edit += string(internal_key(*least)) + string(internal_key(*greatest))
        return record(edit)


def stored(block):
    return block + b"\x00" + masked(block + b"\x00")


def hexadecimal(text):
    return bytes.fromhex(text)


# the table that has 61 = 31 at sequence 1 alone: a data block, a filter block, the metaindex, the
# index, and the footer
ONE_TABLE = (
    stored(hexadecimal("00 09 01 61 01 01 00 00 00 00 00 00 31 00 00 00 00 01 00 00 00"))
    + stored(hexadecimal("08 10 20 40 80 00 01 00 06 00 00 00 00 09 00 00 00 0b"))
    + stored(hexadecimal("00 22 02") + b"filter.leveldb.BuiltinBloomFilter2" + hexadecimal("1a 12 00 00 00 00 01 00 00 00"))
    + stored(hexadecimal("00 09 02 61 01 01 00 00 00 00 00 00 00 15 00 00 00 00 01 00 00 00"))
    + hexadecimal("31 2f 65 16" + "00" * 36 + "57 fb 80 8b 24 75 47 db")
)
assert len(ONE_TABLE) == 176


def block(pairs):
    """Returns a block whose entries share nothing, each at a restart point."""
    entries = [varint(0) + varint(len(key)) + varint(len(value)) + key + value for key, value in pairs]
    places = [sum(map(len, entries[:count])) for count in range(len(entries))] or [0]
    return b"".join(entries) + struct.pack(f"<{len(places) + 1}I", *places, len(places))


def table_file(entries):
    """Returns a table of one data block without a filter. An entry is its key, sequence and
    value."""
    data = stored(block([(internal_key(key, sequence), spelled(value)) for key, sequence, value in entries]))
    metaindex = stored(block([]))
    at_data, at_metaindex = (varint(at) + varint(len(it) - 5) for at, it in ((0, data), (len(data), metaindex)))
    index = stored(block([(internal_key(*entries[-1][:2]), at_data)]))
    footer = at_metaindex + varint(len(data) + len(metaindex)) + varint(len(index) - 5)
    return data + metaindex + index + footer + bytes(40 - len(footer)) + ONE_TABLE[-8:]


# ---- folders


def new_folder(room, name="folder"):
    folder = os.path.join(room, name)
    os.mkdir(folder)
    return folder


def bytes_of(folder, name=""):
    with open(os.path.join(folder, name) if name else folder, "rb") as file:
        return file.read()


def write_directory(room, name, manifest, files):
    """Makes a new folder with these files, and with the MANIFEST and a CURRENT that names it if one
    is given."""
    folder = new_folder(room, name)
    if manifest:
        name_of_manifest = f"MANIFEST-{manifest.number:06}"
        files = {"CURRENT": f"{name_of_manifest}\n".encode(), name_of_manifest: manifest.file(), **files}
    for name_of_file, text in files.items():
        with open(os.path.join(folder, name_of_file), "wb") as file:
            file.write(text)
    return folder


def with_table(room, name, table, **more):
    """Makes a new folder with a database of this one table, which has the bounds and the size of
    ONE_TABLE, and of these files."""
    manifest = Manifest(log=3, next_file=6, last_sequence=1, tables=[(6, 5, len(ONE_TABLE), ("61", 1), ("61", 1))])
    return write_directory(room, name, manifest, {"000003.log": b"", "000005.ldb": table, **more})
