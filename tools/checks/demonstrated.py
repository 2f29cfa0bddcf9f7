"""The check of tools/checks/program that `make demo` shows what a user's first session prints."""
import os
import subprocess

from examples import read
from listed import check
from repository import ROOT
from running import SECONDS, under_test, want

# What each command of the session prints, in its order.
PRINTED = {
    "mkdir users": "",
    "ldbtool put --text users user:1 Ada": "",
    "ldbtool put --text users user:2 Bob": "",
    "ldbtool import users": "taken 1\n",
    "ldbtool get --text users user:1": "Ada\n",
    "ldbtool scan --text --values --prefix user: users": "user:1 Ada\nuser:2 Bob\n",
    "ldbtool check users": "good\nlast-sequence 3\ntable 0 7 2\nlog 6 1 clean\n",
    "> script": "",
    "cat script": "open\nsnapshot\niter 1\ndel 757365723a31\nget 757365723a31\nget 757365723a31 1\n"
    "seek 1 757365723a\nclose\n",
    "ldbtool run users < script": "ok\nsnapshot 1\niter 1\nok\nnone\nvalue 416461\n"
    "at 757365723a31 416461\nok\n",
    "ls users": "000006.log\n000007.ldb\n000009.log\nCURRENT\nLOCK\nMANIFEST-000008\n",
    "ldbtool stats users": "comparator leveldb.BytewiseComparator\nrecorded-sequence 3\nnext-file 10\n"
    + "level 0 files 1 bytes 203\n"
    + "".join(f"level {level} files 0 bytes 0\n" for level in range(1, 7))
    + "log 6 bytes 27\nlog 9 bytes 27\n",
}


@check("make demo shows a first session, each command before what it prints")
def demonstrated(room):
    command = [f"{ROOT}/tools/demo", f"{room}/demo"]
    environment = {**os.environ, "LDBTOOL": under_test()}
    ran = subprocess.run(command, env=environment, capture_output=True, text=True, timeout=SECONDS)
    want((ran.returncode, ran.stderr), (0, ""), "how it ended, and its standard error")
    shown = read(ran.stdout.splitlines())
    want(len(shown), len(PRINTED), "how many commands it shows")
    for (said, printed), (end, wanted) in zip(shown, PRINTED.items()):
        want(said.rstrip("\n").endswith(end), True, f"{said!r} ends with {end!r}")
        # (a blank line parts it from the next step)
        want(printed.split("\n\n")[0].rstrip("\n"), wanted.rstrip("\n"), f"what {end!r} prints")
    want("scan --text --values --limit 10 /path/to/database" in ran.stdout, True, "it says how to go on")
    want(sorted(os.listdir(f"{room}/demo")), ["bin", "script", "users"], "what it leaves")
