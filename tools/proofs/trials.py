"""Tries several edits of a crate by one check, and reads what its report says of each.

The prover proves a function from its own body, its own proof files and the contracts of what it
calls: no proof can open another function's body. So edits of several bodies can stand side by side,
and each is refused if its own function is. If the report names a function only because another one
isn't proved, that says nothing of its edit. That edit is undecided, and is tried again.
"""
import os
import re
from typing import NamedTuple

from bodies import bodies, named
from prover import rt

# Each further edit costs less than one alone, and holds back others if its function is called.
MOST = 10

SAID = re.compile(r"fn (\S+): (.*)")
PLACE = re.compile(r"(?:note: )?(?:\./)?(proofs|src|specs)/(\S+?):(\d+):\d+: (error|warning)?")
TAKEN_AWAY = re.compile(r"has no field|is not in scope|has no `")
WAITS = re.compile(r"[;:] it calls `[^`]*`.*")
FEW = "only because a proof file names what the edit took away, so this says little of the contract: change a value and keep the names"


class Edit(NamedTuple):
    """Holds an edit, with name, source and lines of each function that it changes. It has none if
    it changes something else."""

    name: str
    path: str
    text: str
    changes: tuple = ()
    calls: frozenset = frozenset()

    @property
    def functions(self):
        return {name for name, *_ in self.changes}


def places(text, folder):
    """Returns the sources and lines that an edit changes, counted from 0, or nothing if that is
    unclear."""
    found, texts, path, old = [], {}, "", ""
    for line in text.split("\n"):
        if line.startswith("file: "):
            path = line[len("file: ") :].strip()
        elif line.startswith("old: "):
            old = line[len("old: ") :]
        elif line.startswith("new:"):
            if not path.startswith("src/") or not old or not os.path.isfile(f"{folder}/{path}"):
                return []
            if path not in texts:
                with open(f"{folder}/{path}", encoding="utf-8") as file:
                    texts[path] = file.read()
            if texts[path].count(old) != 1:
                return []
            found.append((path, texts[path][: texts[path].index(old)].count("\n")))
            texts[path] = texts[path].replace(old, line[len("new:") :].removeprefix(" "))
    return found


def change(path, line, prover):
    """Returns the function whose body has this line: its name, source, lines and calls; nothing if
    there is none."""
    with open(f"{prover.crate.folder}/{path}", encoding="utf-8") as file:
        inside = [it for it in bodies(file.read()) if it.first < line < it.end]
    name = named(inside[0], path, prover.name, prover.functions) if len(inside) == 1 else ""
    return ((name, path, inside[0].head, inside[0].end), inside[0].calls) if name else None


def read(path, prover):
    """Reads the edit of a file, as it would change the crate."""
    with open(path, encoding="utf-8", errors="replace") as file:
        text = file.read()
    edit, found = Edit(os.path.basename(path), path, text), [change(*it, prover) for it in places(text, prover.crate.folder)]
    if not found or None in found:
        return edit
    return edit._replace(changes=tuple({it for it, _ in found}), calls=frozenset().union(*(it for _, it in found)))


def callees(prover):
    """Returns all that each function calls, and what that calls, by the last parts of their
    names."""
    direct = {}
    for at, _, names in os.walk(f"{prover.crate.folder}/src"):
        for name in (it for it in names if it.endswith(".rt")):
            with open(f"{at}/{name}", encoding="utf-8") as file:
                for it in bodies(file.read()):
                    direct[it.name] = direct.get(it.name, frozenset()) | it.calls
    return {it: reached(it, direct) for it in direct}


def reached(name, direct):
    found, left = set(), {name}
    while left:
        left = set().union(*(direct.get(it, ()) for it in left)) & set(direct) - found
        found |= left
    return found


def meet(one, other, below):
    """Says whether two edits change one function, or one changes a function that the other's calls,
    as far as names tell."""
    last = [{it.rpartition("::")[2] for it in edit.functions} for edit in (one, other)]
    ways = ((last[0], last[1]), (last[1], last[0]))
    return bool(one.functions & other.functions) or any(below.get(it, set()) & called for callers, called in ways for it in callers)


def groups(edits, prover):
    """Returns the edits in groups that are tried together, and one by one those that are tried
    alone."""
    below, found = callees(prover), []
    for edit in (it for it in edits if it.changes):
        fits = (it for it in found if len(it) < MOST and not any(meet(edit, other, below) for other in it))
        room = next((it for it in fits if prover.edited(sorted([*it, edit]))), None)
        if room is None:
            room = []
            found.append(room)
        room.append(edit)
    return [sorted(it) for it in found], [it for it in edits if not it.changes]


def folder_of(function):
    """Returns where the proof files of a function stand. (That of one that calls itself has a
    mark.)"""
    return function.partition("::")[2].replace("::", "/")


def is_whole(status, lines, texts, prover):
    """Says whether the check went to its end, and refused nothing but functions."""
    if status != 1 or not lines[-1].startswith("only=") or rt().rtlib.STALE.search("\n".join(lines)):
        return False
    if any(rt().unread(it, texts) or re.search(r"\berror\[[\w-]+\]", it) for it in lines):
        return False
    own = {folder_of(it) for it in prover.functions}
    found = [it for it in map(PLACE.match, lines) if it and it[4] == "error"]
    return all(it[1] == "proofs" and os.path.dirname(it[2]).replace("+", "") in own for it in found)


def told_of(edit, lines):
    """Returns the lines of a report about the functions that an edit changes: at their proof files,
    or at their lines of the source."""
    found = []
    for line in lines:
        at = PLACE.match(line)
        for name, path, head, end in edit.changes if at else ():
            in_proofs = at[1] == "proofs" and at[4] == "error" and os.path.dirname(at[2]).replace("+", "") == folder_of(name)
            in_source = line.startswith("note: ") and f"{at[1]}/{at[2]}" == path and head < int(at[3]) <= end + 1
            found += [line] if (in_proofs or in_source) and "was not admitted" not in line else []
    return found


def is_refused(edit, said, told):
    """Says whether the report refuses one of the edit's functions for its own sake."""
    for it in edit.functions:
        words = said.get(it, "")
        own = WAITS.sub("", words)
        if own == "not proved" and (told or own == words):
            return True
        if own.startswith("no proof: expected answers in") and "`search` did not prove" in own:
            return True
    return False


def judged(edits, status, report, texts, prover):
    """Returns the result of a check of these edits together, by their names: a line for each that
    is refused, and nothing for one that isn't, or of which nothing is known."""
    lines = report.rstrip("\n").split("\n")
    if not is_whole(status, lines, texts, prover):
        return {}
    said, found = dict(it.groups() for it in map(SAID.match, lines) if it), {}
    for edit in edits:
        told = told_of(edit, lines)
        if is_refused(edit, said, told):
            first = next((it for it in told if not TAKEN_AWAY.search(it)), "")
            label, few = f"must-fail {prover.name}/{edit.name}: refused, as it must be", f" ({FEW}): {told[0][:160]}" if told else ""
            found[edit.name] = label + (f": {first[:160]}" if first else few)
    return found


def try_group(edits, prover):
    """Tries the edits together, and returns the lines of those that are refused, by their names."""
    texts = prover.edited(edits)
    if not texts:
        return {}
    status, report = prover.together(texts, sorted(set().union(*(it.functions for it in edits))))
    return judged(edits, status, report, texts, prover)
