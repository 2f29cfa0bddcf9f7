"""Runs programs over a shim (LD_PRELOAD) that refuses the call of one number and counts all."""
import os
import struct
import subprocess
import tempfile

from repository import ROOT

SECONDS = 60


class Missing(Exception):
    """Says what must be there before a program can be run so."""


def built_shim(room, name):
    """Builds the shim of NAME.c, in this folder."""
    shim = f"{room}/{name}.so"
    try:
        subprocess.run(["cc", "-shared", "-fPIC", "-O1", "-Wall", "-Wextra", "-o", shim, f"{ROOT}/tools/faults/{name}.c"], check=True)
    except (OSError, subprocess.CalledProcessError) as fault:
        raise Missing(f"the shim wasn't built: {fault}") from fault
    return shim


class Run:
    """Runs a program over a shim that refuses the call of this number, or none if it is 0."""

    def __init__(self, shim, words, number, script=b"", **given):
        with tempfile.NamedTemporaryFile() as counts:
            counts.write(bytes(16))
            counts.flush()
            environment = {**os.environ, "LD_PRELOAD": shim, "COUNTS_FILE": counts.name, "REFUSED_NUMBER": str(number), **given}
            try:
                ran = subprocess.run(words, input=script, env=environment, capture_output=True, timeout=SECONDS)
                self.status, self.printed, self.faults = ran.returncode, ran.stdout, ran.stderr
            except subprocess.TimeoutExpired:
                self.status, self.printed, self.faults = -1, b"", f"it ran for {SECONDS} seconds".encode()
            with open(counts.name, "rb") as two:
                self.made, self.refused = struct.unpack("=QQ", two.read())

    @property
    def said(self):
        return (self.printed + self.faults).decode(errors="replace").strip()
