"""The kit's own judge of edits, and the checks that it makes.

`rt` is one Python file, and is loaded here as `tools/proofs/building.py` loads its other. So rt's
own `must_fail` judges an edit, in its words and by its rules, with any kit. A group of edits is
applied and checked by the functions that try a single one. (`rt must-fail` itself tries one edit at
a time. `rt check` keeps what it proved in the folder that it checks, which must be copied for each
group.)
"""
import functools
import importlib.machinery
import importlib.util
import os
import shutil
import re
import signal
import sys
import tempfile
import threading

from repository import ROOT, RT

ONE_JOB = ["--jobs", "1"]
STOPPED = threading.Event()


class Stopped(Exception):
    """Says that the run was stopped while a check ran."""


@functools.cache
def rt():
    """Returns the kit's rt. Its checks end with this process, however it ends: they are one process
    group, which begins here once."""
    loader = importlib.machinery.SourceFileLoader("rt_of_the_kit", os.path.realpath(RT))
    made = importlib.util.module_from_spec(importlib.util.spec_from_loader(loader.name, loader))
    sys.modules[loader.name] = made
    loader.exec_module(made)
    words = made.rtlib.guarded()
    made.rtlib.guarded = lambda: words
    check = made.checked

    def checked(*given):
        ran = check(*given)
        if STOPPED.is_set():
            raise Stopped
        return ran

    made.checked = checked
    return made


def stop_checks():
    """Ends the checks that still run; what they would say is dropped."""
    STOPPED.set()
    found = re.search(r"setpgid\(0, (\d+)\)", " ".join(rt().rtlib.guarded()))
    if found:
        os.killpg(int(found[1]), signal.SIGKILL)


class Prover:
    """Checks a crate of a copy of the repository, with other texts instead of its own."""

    def __init__(self, crate, copy):
        self.name = crate
        self.crate = rt().rtlib.Crate(f"{copy}/crates/{crate}", copy, {})
        self.room, self.files, self.functions = tempfile.mkdtemp(prefix=f"{crate}-", dir=copy), {}, ()

    @property
    def kept(self):
        return f"{self.room}/seed"

    def begin(self):
        """Checks the crate as it stands, over what is kept of it in this checkout, and returns
        whether it is proved. What this leaves is the seed, over which each edit is tried."""
        if not all(it.is_built() for it in self.crate.below()):
            return False
        start = f"{ROOT}/crates/{self.name}/out/incremental"
        return os.path.isdir(start) and self.has_begun_over(start) or self.has_begun_over(None)

    def has_begun_over(self, start):
        shutil.rmtree(self.kept, ignore_errors=True)
        try:
            if start:
                rt().linked(start, self.kept)
            else:
                os.mkdir(self.kept)
        except (OSError, shutil.Error):
            # (another command may write what this one copies)
            return False
        ran = rt().checked(self.crate, {}, ONE_JOB, self.kept)
        self.files, self.functions = rt().listing(self.kept), tuple(re.findall(r"^fn (\S+): proved", ran.stdout, re.M))
        return not ran.returncode

    def is_untouched(self):
        """Says whether no check has changed the seed."""
        return rt().listing(self.kept) == self.files

    def is_sound(self):
        """Says whether the crate is still proved over the seed."""
        return self.is_untouched() and not rt().checked(self.crate, {}, ONE_JOB, self.kept).returncode

    def over_a_copy(self, check):
        """Returns what the check says, over its own copy of the seed."""
        with tempfile.TemporaryDirectory(prefix="over-", dir=self.room) as over:
            rt().linked(self.kept, f"{over}/kept")
            return check(f"{over}/kept")

    def edited(self, edits):
        """Returns the texts of the files that these edits change together, by their paths. It
        returns none if one doesn't apply over those before it."""
        return rt().edited("\n".join(it.text for it in edits), self.crate.folder)[0]

    def alone(self, path):
        """Returns what rt says of one edit: the result, and the line to print."""
        found = self.over_a_copy(lambda over: rt().must_fail(self.crate, path, ONE_JOB, over))
        # (as rt does: what has no result over the seed is tried from nothing)
        if found[0] in rt().SETTLED:
            return found
        whole = rt().must_fail(self.crate, path, ONE_JOB)
        return found if whole[0] == rt().UNSURE and found[0] == rt().MISSED else whole

    def together(self, texts, functions):
        """Returns the status and the words of a check of these functions, and of what they call,
        with these texts. (Their callers are left out: a function is proved from its own body and
        the contracts of what it calls.)"""
        only = [word for it in functions for word in ("--only", it.partition("::")[2])]
        ran = self.over_a_copy(lambda over: rt().checked(self.crate, texts, [*ONE_JOB, *only], over))
        return ran.returncode, ran.stdout
