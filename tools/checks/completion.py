"""Checks of tools/checks/program about completion: each shell is asked what it offers after the
start of a command line.

bash is asked as it asks itself: by the function that is registered for `ldbtool`, over the words as
it cuts them. zsh completes only for a person who types, so it is started at its own terminal, with
the line and a tab.
"""
import os
import pty
import re
import select
import shutil
import signal
import subprocess
import time

from listed import Wrong, check
from repository import ROOT
from running import SECONDS, ldbtool, want

VERBS = ["get", "scan", "export", "stats", "check", "dump", "run", "import", "compact", "put", "del", "mend"]
SIZES = ["--write-buffer", "--block-bytes", "--file-bytes", "--level0-files", "--base-bytes", "--cache-blocks"]
COMMON = ["--order", "--help"]
RUN = ["--work", "--strict", "--mend", *SIZES, *COMMON]
SCAN = ["--from", "--to", "--prefix", "--limit", "--reverse", "--count", "--values", "--text", "--json", *COMMON]
FOLDERS = ["one", "some folder", "two"]

# The words before, the start of the next one, and what is offered for it. (The long one of two
# spellings is enough.)
OFFERED = [
    ([], "", [*VERBS, "help"]),
    ([], "r", ["run"]),
    ([], "c", ["check", "compact"]),
    ([], "p", ["put"]),
    ([], "m", ["mend"]),
    ([], "d", ["dump", "del"]),
    ([], "x", []),
    ([], "--", ["--help", "--version"]),
    (["help"], "", VERBS),
    (["help"], "d", ["dump", "del"]),
    (["help", "run"], "", []),
    *[([verb], "", FOLDERS) for verb in VERBS],
    (["run"], "o", ["one"]),
    (["dump"], "t", ["two"]),
    (["put"], "t", ["two"]),
    (["get"], "--", ["--text", "--raw", *COMMON]),
    (["put"], "--", ["--text", *COMMON]),
    (["del"], "--", ["--text", *COMMON]),
    (["scan"], "--", SCAN),
    (["export"], "--", ["--from", "--to", "--prefix", *COMMON]),
    (["stats"], "--", ["--json", *COMMON]),
    (["check"], "--", ["--keep-going", *COMMON]),
    (["dump"], "--", ["--text", "--json", "--keep-going", *COMMON]),
    (["run"], "--", RUN),
    (["import"], "--", ["--batch", "--sync", "--create", "--mend", *SIZES, *COMMON]),
    (["compact"], "--", ["--level", "--mend", *SIZES, *COMMON]),
    (["mend"], "--", ["--dry-run", "--holes", *COMMON]),
    (["run"], "--b", ["--block-bytes", "--base-bytes"]),
    (["import"], "--b", ["--batch", "--block-bytes", "--base-bytes"]),
    (["run", "--order"], "", ["bytes", "reverse"]),
    (["dump", "--order"], "r", ["reverse"]),
    (["run", "--work"], "", ["auto"]),
    (["compact", "--level"], "", ["0", "1", "2", "3", "4", "5"]),
    (["run", "--order", "reverse"], "--", [it for it in RUN if it != "--order"]),
    (["run", "--order=reverse"], "--", [it for it in RUN if it != "--order"]),
    (["run", "--order=reverse"], "o", ["one"]),
    (["scan", "--reverse", "--values"], "--", [it for it in SCAN if it not in ("--reverse", "--values")]),
    (["scan", "--reverse"], "t", ["two"]),
    (["run", "--cache-blocks", "16"], "t", ["two"]),
    (["run", "--cache-blocks"], "", []),
    (["scan", "--from"], "", []),
    (["run", "one"], "--f", ["--file-bytes"]),
    (["get", "one"], "--t", ["--text"]),
    (["dump", "--text", "one"], "--j", ["--json"]),
]

# What bash is asked besides: an '=' is a word to it. After DIR it offers nothing, and zsh the
# options that are left.
OFFERED_BY_BASH = [
    (["run", "--order="], "b", ["bytes"]),
    (["run"], "--order=", ["bytes", "reverse"]),
    (["run", "one"], "", []),
    (["run", "--", "one"], "--", []),
]

OFFERED_BY_ZSH = [(["run", "one"], "", RUN)]

BASH = r"""
. "$1"
shift
COMP_WORDS=("$@")
COMP_CWORD=$(($# - 1))
function=$(complete -p ldbtool | sed -n 's/^complete -F \([^ ]*\) ldbtool$/\1/p')
"$function" ldbtool "${COMP_WORDS[COMP_CWORD]}" "${COMP_WORDS[COMP_CWORD - 1]}"
printf '%s\n' "${COMPREPLY[@]}"
"""

# Each set of words that a completion hands to the shell is written down, and a line after the last
# of them.
ZSH = r"""
fpath=("$COMPLETION" $fpath)
autoload -Uz compinit
compinit -D -u
compadd() {
    local -a offered
    if [[ ${@[1,(i)(-|--)]} != *-[OAD]* ]]; then
        builtin compadd -A offered "$@"
        print -rl -- $offered >> $ANSWERS
    fi
    builtin compadd "$@"
}
offers() {
    zle list-choices
    print -r -- 'that is all' >> $ANSWERS
}
zle -N offers
bindkey '^I' offers
PROMPT='ready> '
"""


def folders(room):
    """Makes a folder in which others stand, and a file."""
    place = f"{room}/place"
    for name in FOLDERS:
        os.makedirs(f"{place}/{name}")
    with open(f"{place}/other", "wb"):
        pass
    return place


def want_offered(found, ahead, last, wanted, shell):
    want(sorted(set(found)), sorted(wanted), f"what {shell} offers behind {' '.join(['ldbtool', *ahead, last])!r}")


def cut(words):
    """Returns the words as bash cuts them: an '=' parts two words, and is one itself."""
    return [part for word in words for part in re.split("(=)", word) if part]


class Typed:
    """Runs a zsh at its own terminal, into which lines are typed, each ended by a tab and then
    deleted."""

    def __init__(self, room, place):
        self.answers = f"{room}/answers"
        self.child, self.terminal = pty.fork()
        if self.child == 0:
            os.chdir(place)
            told = {"ZDOTDIR": room, "COMPLETION": f"{ROOT}/completion", "ANSWERS": self.answers}
            os.execvpe("zsh", ["zsh", "-d", "-i"], {"PATH": os.environ["PATH"], "TERM": "dumb", **told})

    def __enter__(self):
        return self

    def __exit__(self, *_):
        os.kill(self.child, signal.SIGKILL)
        os.waitpid(self.child, 0)
        os.close(self.terminal)

    def ready(self):
        self.wait(lambda seen: b"ready> " in seen)

    def offered(self, line):
        """Returns what is offered after this."""
        with open(self.answers, "wb"):
            pass
        os.write(self.terminal, f"{line}\t".encode())
        self.wait(lambda _: self.told().endswith("that is all\n"))
        take_back = b"\x15"
        os.write(self.terminal, take_back)
        return self.told().splitlines()[:-1]

    def told(self):
        with open(self.answers, encoding="utf-8") as file:
            return file.read()

    def wait(self, is_there):
        """Reads what the shell prints until this holds."""
        seen, end = b"", time.monotonic() + SECONDS
        while not is_there(seen):
            if time.monotonic() > end:
                raise Wrong(f"zsh doesn't answer; it printed {seen[-300:]!r}")
            if select.select([self.terminal], [], [], 0.02)[0]:
                seen += os.read(self.terminal, 4096)


@check("bash offers the verbs, the options that a verb takes and aren't there yet, the orders, and folders")
def by_bash(room):
    with open(f"{room}/ask", "w", encoding="utf-8") as script:
        script.write(BASH)
    place = folders(room)
    for ahead, last, wanted in [*OFFERED, *OFFERED_BY_BASH]:
        words = [*cut(["ldbtool", *ahead]), *(cut([last]) or [""])]
        command = ["bash", "--norc", f"{room}/ask", f"{ROOT}/completion/ldbtool.bash", *words]
        ran = subprocess.run(command, cwd=place, capture_output=True, text=True, timeout=SECONDS)
        want(ran.stderr, "", f"what bash says of {words}")
        want_offered([it for it in ran.stdout.splitlines() if it], ahead, last, wanted, "bash")


@check("zsh offers the same at a terminal")
def by_zsh(room):
    if not shutil.which("zsh"):
        return "left out, since zsh isn't installed"
    with open(f"{room}/.zshrc", "w", encoding="utf-8") as script:
        script.write(ZSH)
    place = folders(room)
    with Typed(room, place) as shell:
        shell.ready()
        for ahead, last, wanted in [*OFFERED, *OFFERED_BY_ZSH]:
            # (zsh shows an '=' with an option that takes a value, and quotes folders; the short
            # spellings aren't asked for)
            found = [it.rstrip("=").replace("\\ ", " ") for it in shell.offered(" ".join(["ldbtool", *ahead, last]))]
            want_offered([it for it in found if it and not re.fullmatch("-[a-zA-Z]", it)], ahead, last, wanted, "zsh")
    return None


@check("every option that the help of a verb tells is offered behind it")
def all_options(_room):
    for verb in VERBS:
        told = set(re.findall(r"--[a-z0-9-]+", ldbtool("help", verb).stdout.decode().split("\nOptions:\n")[1].split("\n\n")[0]))
        offered = next(wanted for ahead, last, wanted in OFFERED if (ahead, last) == ([verb], "--"))
        want(told - set(offered), set(), f"the options of {verb} that aren't offered")
