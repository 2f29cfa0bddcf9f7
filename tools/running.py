"""Runs ldbtool for tools/checks/program, and compares what it prints."""
import os
import re
import subprocess

from listed import Wrong
from repository import ROOT

SECONDS = 60


def want(found, wanted, what):
    if found != wanted:
        raise Wrong(f"{what}: {short(found)} in place of {short(wanted)}")


def short(it):
    text = repr(it)
    return text if len(text) <= 300 else f"{text[:297]}..."


# ---- the program


class Under:
    """Returns the program under test: what `make build` made, if nothing else is said."""

    program = os.environ.get("LDBTOOL") or f"{ROOT}/build/ldbtool"


def under_test(path=None):
    """Returns the path of the program that the checks run; a given path is that from now on."""
    if path:
        Under.program = path
    return os.path.abspath(Under.program)


def missing():
    """Says why the checks can't run, or nothing."""
    return "" if os.path.isfile(under_test()) else f"there is no {under_test()}: make build proves and makes it"


def ldbtool(*words, script=b"", **how):
    return subprocess.run([under_test(), *words], input=script, capture_output=True, timeout=SECONDS, **how)


def lines(*texts):
    return "".join(f"{text}\n" for text in texts).encode()


# why there was a refusal: of a script's line, of a folder, of a file in it; and its source
REASON = re.compile(
    rb"ldbtool: (line \d+: |.*: (refused \d|(table|log) \d|each file is sound|`ldbtool check --keep-going|can't be listed|a name in it"
    rb"|the newest MANIFEST here|the MANIFEST is damaged|in a copy of the folder|no MANIFEST is here|the MANIFEST says|\d+ of \d+ tables have|have the program that wrote it"
    rb"|(MANIFEST-\d+|\d+\.log) (ends in|has zeros|was cut)|whole records of|`ldbtool mend )"
    rb"|.*/(CURRENT|LOCK|MANIFEST-\d+|\d+\.(log|ldb|sst|dbtmp)): )"
)


def said_beside(printed, said):
    """Returns what was said on standard error, without the reasons of printed refusals."""
    return b"".join(it for it in said.splitlines(keepends=True) if b"refused" not in printed or not REASON.match(it))


def want_ran(ran, status, printed, what):
    """Checks that it printed this, and said nothing but the reasons of refusals."""
    want((ran.returncode, ran.stdout, said_beside(printed, ran.stderr)), (status, printed, b""), what)


def want_answers(folder, script, answers, *options):
    """Runs a script of `;`-separated commands, or of raw bytes, and checks its answers."""
    if isinstance(script, str):
        script = lines(*[it.strip() for it in script.split(";")])
    wanted = lines(*[it.strip() for it in answers.split(";")]) if answers else b""
    want_ran(ldbtool("run", *options, folder, script=script), 0, wanted, f"the script {short(script)}")


def no_current(folder):
    """Returns what a check says of a folder that it prints as `empty`."""
    return f"ldbtool: {folder}: no CURRENT here: no database, or an empty one\n".encode()


def want_report(folder, *wanted, status=0, options=()):
    ran = ldbtool("check", *options, folder)
    said = no_current(folder) if wanted == ("empty",) else b""
    want((ran.returncode, ran.stdout, said_beside(ran.stdout, ran.stderr)), (status, lines(*wanted), said), "check")


def want_entries(folder, *wanted, status=0, options=()):
    ran = ldbtool("dump", *options, folder)
    said = no_current(folder) if status == 0 and not os.path.lexists(f"{folder}/CURRENT") else b""
    want((ran.returncode, ran.stdout, said_beside(ran.stdout, ran.stderr)), (status, lines(*wanted), said), "dump")


def want_printed(words, status, *printed, script=b""):
    """Runs a command that must print these lines, and say nothing."""
    want_ran(ldbtool(*words, script=script), status, lines(*printed), " ".join(words))


def want_refused(words, refusal, *printed, script=b""):
    """Runs a command that is refused so: it prints these lines and no more, and standard error
    alone says the refusal."""
    ran = ldbtool(*words, script=script)
    said = ran.stderr.splitlines(keepends=True)
    want((ran.returncode, ran.stdout), (1, lines(*printed)), " ".join(words))
    want((f": refused {refusal}: ".encode() in b"".join(said[:1]), [it for it in said if not REASON.match(it)]), (True, []), f"what {words[0]} says: {said}")


def want_fault(ran, status, what):
    """Checks that nothing is on standard output, and a line or more on standard error."""
    want((ran.returncode, ran.stdout, ran.stderr != b""), (status, b"", True), what)
