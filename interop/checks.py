"""The checks between this database and LevelDB itself. `interop/run` builds what they need and
starts them.

usage: checks.py [--only WORD] [--list] QUICKSTART LDBTOOL LEVELDB_DRIVER

QUICKSTART and LDBTOOL are the programs under test. The checks of the first stand in logs.py and
faults.py, those of the second in tables.py, over whole directories in directories.py, and by turns
with LevelDB in turns.py.

QUICKSTART opens the folder that it is given, and prints the value of the key `61` there, or "none".
It writes `61` = `31`, prints the value of `61`, closes, and prints the log that it wrote to. Each
stands on its own line, in hexadecimal. What the programs must print is taken from LevelDB, or from
what LevelDB was told to write, never from themselves.

LevelDB moves what logs hold into a table whenever it opens a folder without reuse_logs. If a check
wants the folder as it is, LevelDB therefore reads a copy of it, or opens it with reuse_logs.
"""
import importlib
import os
import sys

from beside import CHECKS, Programs, parser, run, run_checks


def main():
    words = parser("The checks between this database and LevelDB itself.")
    for name in ("quickstart", "ldbtool", "leveldb"):
        words.add_argument(name, type=os.path.abspath)
    given = words.parse_args()
    Programs.quickstart, Programs.ldbtool, Programs.leveldb = given.quickstart, given.ldbtool, given.leveldb
    # each adds its checks to the list
    for name in ("logs", "faults", "tables", "directories", "turns", "orders", "power", "guide"):
        importlib.import_module(name)
    if not given.list:
        print(f"interop: beside LevelDB {run([Programs.leveldb, 'version']).stdout.strip()}", flush=True)
    return run_checks("interop", given, CHECKS)


if __name__ == "__main__":
    sys.exit(main())
