"""Scripts and command lines for ldbtool with the answers that they must get, written down by hand,
for the checks of tools/checks/program."""

# each begins in an empty folder
SCRIPTS = [
    ("open new; write put 61 31 del 61 put 61 32; get 61", "ok; ok; value 32"),
    ("open new; put - -; get -; write; get -", "ok; ok; value -; ok; value -"),
    ("open new; write sync; write sync put 61 3A; get 61", "ok; ok; ok; value 3a"),
    ("get 61; open; open new; open new; close; open new; close",
     "refused 16 NotOpen; refused 3 NoDatabase; ok; refused 17 AlreadyOpen; ok; refused 4 Exists; refused 16 NotOpen"),
    ("open any; close; open any; close; open", "ok; ok; ok; ok; ok"),
    ("open new; put 6 31; PUT 61 31; ; work 07; get 61 9; next 3; compact 6",
     "ok; refused 20 BadLine; refused 20 BadLine; refused 20 BadLine; refused 20 BadLine; refused 8 NoSnapshot; refused 9 NoIterator; refused 19 BadLevel"),
    ("open new; put 61 31; snapshot; put 61 32; del 61; get 61; get 61 1; release 1; get 61 1; release 1; snapshot",
     "ok; ok; snapshot 1; ok; ok; none; value 31; ok; refused 8 NoSnapshot; refused 8 NoSnapshot; snapshot 2"),
    ("open new; put 61 31; snapshot; put 61 32; put 62 33; get 61 1; iter 1; iter; first 1; next 1; last 2; prev 2; prev 2; release 1; get 61 1; "
     "first 1; drop 1; next 1; close; open; snapshot",
     "ok; ok; snapshot 1; ok; ok; value 31; iter 1; iter 2; at 61 31; end; at 62 33; at 61 32; end; ok; refused 8 NoSnapshot; "
     "at 61 31; ok; refused 9 NoIterator; ok; ok; snapshot 2"),
    ("open new; put 61 31; put 62 32; put 63 33; iter; seek 1 62; put 6262 34; del 63; next 1; next 1; next 1",
     "ok; ok; ok; ok; iter 1; at 62 32; ok; ok; at 63 33; end; refused 10 NoPlace"),
    ("open new; put 61 31; put 63 33; put 62 32; iter; seek 1 62; next 1; prev 1; prev 1; prev 1; prev 1",
     "ok; ok; ok; ok; iter 1; at 62 32; at 63 33; at 62 32; at 61 31; end; refused 10 NoPlace"),
    ("open new; put 61 -; snapshot; del 61; iter 1; last 1; iter; first 2; iter 9; drop 1; next 1; next 3",
     "ok; ok; snapshot 1; ok; iter 1; at 61 -; iter 2; end; refused 8 NoSnapshot; ok; refused 9 NoIterator; refused 9 NoIterator"),
    ("open new; snapshot; iter; close; open; get 61 1; next 1; snapshot; iter",
     "ok; snapshot 1; iter 1; ok; ok; refused 8 NoSnapshot; refused 9 NoIterator; snapshot 2; iter 2"),
    ("open new; put ff 01; put 00 02; put FF00 03; iter; first 1; next 1; next 1; seek 1 ff; seek 1 ff01",
     "ok; ok; ok; ok; iter 1; at 00 02; at ff 01; at ff00 03; at ff 01; end"),
]  # fmt: skip

BAD_LINES = [
    "put 6 31", "put 61", "put 61 31 32", "PUT 61 31", "Open", "opened", "", " ", " get 61", "get 61 ", "get  61", "get\t61",
    "get 61\r", "get 0x61", "get 6g", "get --", "get", "get 61 +1", "get 61 01", "get 61 -1", "get 61 1.0",
    "get 61 18446744073709551616", "release", "release 00", "open old", "open new new", "close 1", "snapshot 1", "iter 1 2",
    "seek 1", "seek 61 1 2", "next", "write put 61", "write del", "write sync sync", "write get 61", "write put 61 31 del",
    "get 61\0", "get \u00e9", "# a comment",
]  # fmt: skip

# five tables in level 0, and a compaction of them that has merged one entry
FIVE_TABLES = "open new; " + "; ".join(f"put 6{n} 3{n}; work 9; work 9" for n in range(1, 6)) + "; work 1"
FIVE_ANSWERS = "ok; " + "; ".join(["ok; worked; worked"] * 5) + "; worked"

# each begins in an empty folder: the options, the commands, their answers, and what a dump prints
# afterwards
WORKED = [
    ("", "open new; put 61 31; put 62 32; put 63 33; iter; seek 1 62; put 6262 34; del 63; compact all; next 1; next 1; next 1; drop 1; compact all",
     "ok; ok; ok; ok; iter 1; at 62 32; ok; ok; ok; at 63 33; end; refused 10 NoPlace; ok; ok",
     ["table 6 6 61 1 put 31", "table 6 6 62 2 put 32", "table 6 6 6262 4 put 34"]),
    ("", "open new; put 61 31; put 63 33; compact all; put 62 32; iter; seek 1 62; next 1; prev 1; prev 1; prev 1; prev 1",
     "ok; ok; ok; ok; ok; iter 1; at 62 32; at 63 33; at 62 32; at 61 31; end; refused 10 NoPlace",
     ["table 6 5 61 1 put 31", "table 6 5 63 2 put 33", "log 3 62 3 put 32"]),
    ("", "open new; put 61 31; snapshot; put 61 32; put 61 33; snapshot; del 61; compact all; close",
     "ok; ok; snapshot 1; ok; ok; snapshot 2; ok; ok; ok",
     ["table 6 5 61 4 delete", "table 6 5 61 3 put 33", "table 6 5 61 1 put 31"]),
    ("", "open new; put 61 31; snapshot; put 61 32; put 61 33; snapshot; del 61; compact all; release 1; release 2; compact all; close",
     "ok; ok; snapshot 1; ok; ok; snapshot 2; ok; ok; ok; ok; ok; ok", []),
    ("--write-buffer 1 --level0-files 5", f"{FIVE_TABLES}; snapshot; put 61 39; work 1; work 1; work 1; work 1; get 61 1; get 61; work 1; work 1; work 1",
     f"{FIVE_ANSWERS}; snapshot 1; ok; worked; worked; worked; worked; value 31; value 39; worked; worked; idle",
     ["table 0 15 61 6 put 39", *[f"table 1 13 6{n} {n} put 3{n}" for n in range(1, 6)]]),
    ("--write-buffer 1", "open new; put 61 31; compact all; del 61; work 9; work 9; compact 0; get 61",
     "ok; ok; ok; ok; worked; worked; ok; none", ["table 1 8 61 2 delete", "table 6 5 61 1 put 31"]),
    ("--write-buffer 1", "open new; put 61 31; compact all; del 61; work 9; work 9; compact 0; compact all; get 61",
     "ok; ok; ok; ok; worked; worked; ok; ok; none", []),
    ("--write-buffer 1 --file-bytes 1 --level0-files 1 --base-bytes 400",
     f"open new; write put 61 31 put 62 32 put 63 33{'; work 9' * 5}; put 64 34{'; work 9' * 5}",
     f"ok; ok{'; worked' * 4}; idle; ok{'; worked' * 4}; idle",
     ["table 1 7 63 3 put 33", "table 1 11 64 4 put 34", "table 2 8 61 1 put 31", "table 2 12 62 2 put 32"]),
    ("--write-buffer 1", "open new; put 61 31; work 9; work 9; put 62 32; work 9; work 9; get 61; get 62; get 61",
     "ok; ok; worked; worked; ok; worked; worked; value 31; value 32; value 31", ["table 0 4 61 1 put 31", "table 0 6 62 2 put 32"]),
]  # fmt: skip

VERBS = ("get", "scan", "export", "stats", "check", "dump", "run", "import", "compact", "put", "del", "mend")

# command lines that are wrong
MISUSES = [
    [], ["frob", "DIR"], *[[it] for it in VERBS], *[[it, "A", "B"] for it in VERBS if it not in ("get", "del")], *[[it, "--frob", "DIR"] for it in VERBS],
    ["get", "DIR"], ["get", "--raw", "DIR", "61", "62"], ["get", "61", "--text"], ["put", "DIR"], ["put", "DIR", "61"], ["put", "DIR", "61", "31", "x"], ["del", "DIR"], ["del", "DIR", "61", "62"], ["put", "--sync", "DIR", "61", "31"], ["get", "--json", "DIR", "61"], ["get", "--values", "DIR", "61"], ["get", "--limit", "1", "DIR", "61"],
    ["scan", "--limit", "DIR"], ["scan", "--limit", "-1", "DIR"], ["scan", "--limit", "18446744073709551616", "DIR"], ["scan", "--limit", "x", "DIR"], ["scan", "--limit", "", "DIR"],
    ["scan", "--limit", "1", "--limit", "2", "DIR"], ["scan", "--from", "DIR"], ["scan", "--from", "61", "--from", "62", "DIR"], ["scan", "--reverse=yes", "DIR"],
    ["scan", "--values", "--values", "DIR"], ["export", "--values", "DIR"], ["export", "--limit", "1", "DIR"], ["export", "--reverse", "DIR"], ["export", "--text", "DIR"], ["scan", "--count=1", "DIR"],
    ["dump", "--values", "DIR"], ["dump", "--json", "--json", "DIR"], ["dump", "--text=no", "DIR"], ["check", "--json", "DIR"],
    ["dump", "--cache-blocks", "1", "DIR"], ["dump", "--write-buffer", "1", "DIR"], ["get", "--cache-blocks", "1", "DIR", "61"], ["scan", "--cache-blocks", "1", "DIR"],
    ["run", "--cache-blocks", "DIR"], ["--cache-blocks", "1", "run", "DIR"], ["help", "frob"],
    ["run", "--work", "DIR"], ["run", "--work", "always", "DIR"], ["run", "--work", "", "DIR"], ["run", "--work", "auto", "--work", "auto", "DIR"], ["run", "--strict=1", "DIR"],
    ["run", "--batch", "1", "DIR"], ["run", "--sync", "DIR"], ["run", "--level", "1", "DIR"],
    ["import", "--batch", "0", "DIR"], ["import", "--batch", "65537", "DIR"], ["import", "--batch", "x", "DIR"], ["import", "--strict", "DIR"], ["import", "--level", "1", "DIR"],
    ["import", "--sync", "--sync", "DIR"], ["compact", "--level", "6", "DIR"], ["compact", "--level", "-1", "DIR"], ["compact", "--level", "all", "DIR"], ["compact", "--level", "DIR"],
    ["compact", "--batch", "1", "DIR"], ["compact", "--work", "auto", "DIR"],
    ["mend", "--dry-run=1", "DIR"], ["mend", "--holes", "--holes", "DIR"], ["mend", "--mend", "DIR"], ["run", "--holes", "DIR"], ["check", "--mend", "DIR"], ["put", "--mend", "DIR", "61", "31"],
    *[[it, "--order", "DIR"] for it in VERBS], ["run", "--order", "backwards", "DIR"], ["check", "--order", "Bytes", "DIR"], ["dump", "--order", "", "DIR"],
    ["get", "--order", "bytes ", "DIR", "61"], ["scan", "--order", "REVERSE", "DIR"], ["import", "--order", "none", "DIR"], ["compact", "--order", "byte", "DIR"],
    ["dump", "--order", "bytes", "--order", "reverse", "DIR"], ["--order", "bytes", "check", "DIR"],
]  # fmt: skip

# command lines that are wrong in a way that one line says: the words, and what stands in that line
TOLD_MISUSES = [
    (["check", "--order", "backwards", "DIR"], "--order: `bytes` or `reverse` is wanted"),
    (["run", "--work", "always", "DIR"], "--work: `auto` is wanted"),
    (["scan", "--text", "--json", "DIR"], "--text or --json is wanted, not both"),
    (["scan", "--text", "--json", "--values", "--limit", "1", "DIR"], "--text or --json is wanted, not both"),
    *[(["dump", *words, "DIR"], "--text or --json is wanted, not both") for words in (["--text", "--json"], ["--json", "--order", "reverse", "--text"])],
    (["scan", "--order", "reverse", "--prefix", "61", "DIR"], "--prefix: --order bytes is wanted"),
    (["scan", "--order", "reverse", "--prefix", "-", "DIR"], "--prefix: --order bytes is wanted"),
    *[(["get", "DIR", it], "KEY: bytes in hexadecimal are wanted") for it in ("", "6", "6x", "616", "key", "6 1", " 61", "0x61")],
    *[(["scan", f"--{name}", it, "DIR"], f"--{name}: bytes in hexadecimal are wanted") for name in ("from", "to", "prefix") for it in ("", "6", "6x", "0x61")],
    (["scan", "--json", "--from", "key", "DIR"], "--from: bytes in hexadecimal are wanted"),
    (["get", "DIR", "61", "x"], "KEY: bytes in hexadecimal are wanted"), (["put", "DIR", "61", "3"], "VALUE: bytes in hexadecimal are wanted"), (["del", "DIR", "x"], "KEY: bytes in hexadecimal are wanted"),
    *[(["get", "--text", "DIR", it], "KEY: text is wanted") for it in ("\\", "\\x", "\\x6", "\\x6g", "a\\", "\\n", "\\X61", "\\\\\\")],
    (["put", "--text", "DIR", "a", "\\q"], "VALUE: text is wanted"), (["scan", "--text", "--prefix", "\\", "DIR"], "--prefix: text is wanted"),
    (["get", "--raw", "DIR", "61", "62"], "--raw: one KEY is wanted"), (["get", "--raw", "DIR", "-"], "--raw: one KEY is wanted"),
    (["export", "--order", "reverse", "--prefix", "61", "DIR"], "--prefix: --order bytes is wanted"),
]  # fmt: skip

# the options of `run`: the name, the default and the greatest number of each
OPTIONS = [
    ("write-buffer", 4_194_304, 2**30), ("block-bytes", 4_096, 2**20), ("file-bytes", 2_097_152, 2**30),
    ("level0-files", 4, 1_024), ("base-bytes", 10_485_760, 2**40), ("cache-blocks", 1_024, 65_536),
]  # fmt: skip

# the same of one verb alone
OTHER_OPTIONS = [("import", "batch", 1_000, 65_536)]

# words that ask for help, and what it has
TOLD = [
    ("help get", "76616c7565"), ("help put", "--text"), ("del --help", "Deletes one key"), ("get -h", "Usage"), ("scan --help", "--prefix <K>"), ("export --help", "put 6b6579 76616c7565"), ("import --help", "taken N"), ("compact --help", "--level <L>"), ("help mend", "nothing to mend"), ("help run", "--mend"),
    ("--help", "Exit status"), ("help run", "refused 20 BadLine"), ("run --help", "value 76616c7565"), ("check -h", "Usage"),
    ("dump --help", "table LEVEL NUMBER KEY SEQUENCE put VALUE"), ("dump --help", '"kind":"delete"}'), ("--version", "ldbtool 0.1.0"),
]  # fmt: skip
