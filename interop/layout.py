"""Reads what LevelDB says of a directory's files: its MANIFEST, its tables and its logs, as
DumpFile prints them."""
import os

from beside import files_of, joined, leveldb, want_lines


def escaped(text):
    """Returns the bytes that LevelDB prints between quotes (util/logging.cc,
    AppendEscapedStringTo)."""
    found = b"" if text == "-" else bytes.fromhex(text)
    return "".join(chr(byte) if 32 <= byte <= 126 else f"\\x{byte:02x}" for byte in found)


def dumped_by_leveldb(path):
    return leveldb("file", path).splitlines()


class Layout:
    """Holds what the edits of a MANIFEST leave."""

    def __init__(self, folder):
        self.folder, self.tables = folder, set()
        numbers = {"LogNumber": 0, "PrevLogNumber": 0, "LastSeq": 0}
        with open(os.path.join(folder, "CURRENT"), encoding="ascii") as current:
            manifest = os.path.join(folder, current.read().strip())
        for line in dumped_by_leveldb(manifest):
            words = line.split()
            name = words[0].rstrip(":") if line.startswith("  ") and words else ""
            if name in numbers:
                numbers[name] = int(words[1])
            elif name == "RemoveFile":
                self.tables.remove((int(words[1]), int(words[2])))
            elif name == "AddFile":
                self.tables.add((int(words[1]), int(words[2])))
        named = [int(name.split(".")[0]) for name in files_of(folder, ".log")]
        self.logs = [it for it in sorted(named) if it >= numbers["LogNumber"] or it == numbers["PrevLogNumber"]]
        self.last_sequence = numbers["LastSeq"]

    def levels(self):
        return {level for level, _ in self.tables}

    def path(self, number, ending="ldb"):
        return os.path.join(self.folder, f"{number:06d}.{ending}")

    def batches(self, number):
        """Returns the sequence and the number of operations of each batch of a log."""
        found = []
        for line in dumped_by_leveldb(self.path(number, "log")):
            if line.startswith("--- offset"):
                found.append([int(line.split()[-1]), 0])
            else:
                found[-1][1] += 1
        return found

    def report(self):
        """Returns what a check of the directory must print."""
        tables = [f"table {level} {number} {len(dumped_by_leveldb(self.path(number)))}" for level, number in sorted(self.tables)]
        last, logs = self.last_sequence, []
        for number in self.logs:
            batches = self.batches(number)
            last = max([last, *[sequence + count - 1 for sequence, count in batches]])
            logs.append(f"log {number} {len(batches)} clean")
        return joined(["good", f"last-sequence {last}", *tables, *logs])


def like_table(line):
    """Returns a line of a dump as DumpFile has it for a table, or for a log without the batches'
    heads."""
    words = line.split()
    if words[0] == "table":
        key, sequence, kind, value = words[3], words[4], words[5], words[6:] or ["-"]
        return f"'{escaped(key)}' @ {sequence} : {'val' if kind == 'put' else 'del'} => '{escaped(value[0])}'"
    key, kind, value = words[2], words[4], words[5:]
    return f"  put '{escaped(key)}' '{escaped(value[0])}'" if kind == "put" else f"  del '{escaped(key)}'"


def want_dump(layout, text):
    """Compares a dump with what LevelDB prints of each file, in their order."""
    wanted = [line for _, number in sorted(layout.tables) for line in dumped_by_leveldb(layout.path(number))]
    for number in layout.logs:
        wanted += [line for line in dumped_by_leveldb(layout.path(number, "log")) if not line.startswith("--- offset")]
    found = [like_table(line) for line in text.splitlines()]
    want_lines("\n".join(found), "\n".join(wanted), "the dump")
