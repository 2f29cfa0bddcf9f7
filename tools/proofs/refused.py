"""Which crates' edits were all refused, as bugs/refused.txt records it, and of what text that is
true.

A line is a crate, the number of its edits, and a sum of all that the prover reads when it judges
them. Only tools/proofs/bugs writes it. tools/gate tries no edit of a crate whose line has the
present sum.

**What the sum covers.** Of the crate itself it covers sources, definitions, proofs, edits and the
line of crates.txt. Of each crate below it covers the line, sources and definitions, which have the
contracts, types, constants and macros that the crate is judged by. It covers the kit, since another
prover may judge otherwise. A proof of a crate below is read if another one cites it. So the proofs
of crates below that are cited by name from the covered text belong to it as well.

**Bodies below** are not covered. A function is judged by the contracts of those that it calls, and
a library, as the kit builds it, keeps only the signature and clauses of each function
(`out/rlib/CRATE.rlib/lang/src`). So a faster body in `coding` costs the edits of `coding`, and of
no other crate. Bodies are told by the layout of `rt fmt`; if that leaves a doubt, they count.

**Comments** of sources and definitions and blank lines are not covered, since the prover doesn't
read them. Each better sentence in `coding` would cost the edits of the whole tree, 80 processor
minutes. (An edit whose old text also stands in a comment no longer applies: tools/proofs/edits,
with which the gate begins, says so.) Documentation comments of a crate that lists `clap` do count,
since `clap` makes help of them.
"""
import functools
import hashlib
import os
import re
import subprocess

from records import Records
from repository import ROOT, RT, below, crates, edits_of

RECORDS = Records("bugs/refused.txt", """\
# The crates of which the prover refused each edit, those of crates/CRATE/must-fail and of bugs/CRATE: the crate, their number, and a sum
# of all that it read (tools/proofs/refused.py says of what). `make bugs` writes the line of a crate at the end of a run that has tried them
# all; never write one by hand. `make test` leaves out the edits of a crate whose line has the present sum.
""")  # fmt: skip

# Keeps strings, whatever is in them, and drops comments.
RUST = re.compile(r"""(?P<kept>b?r(?P<marks>#*)".*?"(?P=marks)|b?"(?:\\.|[^"\\])*"|(?:(?<!\w)|\bb)'(?:\\[^\n]+?|[^\\'\n])')|/\*.*?\*/|//[^\n]*""", re.S)
DOCUMENTED = re.compile(RUST.pattern.replace("//[^\\n]*", "//(?![/!])[^\\n]*"), re.S)
ANTT = re.compile(r"^\s*--[^\n]*", re.M)
CITED = re.compile(r"\bRattle[.·-](\w+)[.·-]proofs\b")

# The line on which a function begins, with its indentation.
BEGINS = re.compile(r"( *)(?:#\[[^\]]*\] )?(?:pub(?:\([^)]*\))? )?(?:const )?(?:unsafe )?fn \w")


def bare(path, text, documented=False):
    """Returns the text without its comments and blank lines."""
    if path.endswith(".rt"):
        text = (DOCUMENTED if documented else RUST).sub(lambda it: it["kept"] or "", text)
    elif path.endswith(".antt"):
        text = ANTT.sub("", text)
    return "\n".join(it for it in map(str.rstrip, text.split("\n")) if it)


def unbodied(text):
    """Returns a bare source without the bodies of its functions. A body opens on its own line after
    the clauses, or at the end of the signature. It ends at the first closing brace at the
    function's indentation."""
    kept, indent, inside = [], None, False
    for line in text.split("\n"):
        if inside:
            inside = line != f"{indent}}}"
            indent = indent if inside else None
            continue
        kept.append(line)
        begins = BEGINS.match(line)
        indent = begins[1] if begins else indent
        if indent is None:
            continue
        ends_signature = begins or line.startswith(f"{indent})")
        inside = line == f"{indent}{{" or bool(ends_signature and line.endswith(" {"))
        # (a function without statements, or one that a trait only names)
        indent = None if not inside and line.endswith(("{}", ";")) else indent
    return "\n".join(kept)


@functools.cache
def signatures(root, crate):
    """Returns the bare sources of a crate without bodies. A source stays whole if a macro may write
    functions elsewhere."""
    return {path: text if "macro_rules!" in text else unbodied(text) for path, text in read(root, crate, "src").items()}


@functools.cache
def read(root, crate, part):
    """Returns the bare texts of a part of a crate (src, specs or proofs), by their paths."""
    found, top = {}, f"{root}/crates/{crate}"
    for at, folders, names in os.walk(f"{top}/{part}"):
        folders.sort()
        for name in sorted(names):
            path = os.path.relpath(f"{at}/{name}", top)
            with open(f"{at}/{name}", encoding="utf-8", errors="surrogateescape") as file:
                found[path] = bare(name, file.read(), "clap" in crates(root)[crate])
    return found


@functools.cache
def cited(root, crate, part):
    """Returns the crates whose proofs a part of a crate cites."""
    return {name for text in read(root, crate, part).values() for name in CITED.findall(text)}


def covered(crate, root):
    """Returns the parts of crates that the sum covers, each with its texts."""
    found = {(crate, part): read(root, crate, part) for part in ("src", "specs", "proofs")}
    for it in below(crate, root):
        found.update({(it, "src"): signatures(root, it), (it, "specs"): read(root, it, "specs")})
    seen = set()
    while seen != set(found):
        for key in set(found) - seen:
            seen.add(key)
            for it in cited(root, *key) & set(below(crate, root)):
                found[it, "proofs"] = read(root, it, "proofs")
    return found


@functools.cache
def kit():
    return subprocess.check_output([RT, "version"], text=True)


def sum_of(crate, root=ROOT, only=None):
    """Returns the sum of all that the prover reads when it judges the edits of a crate, or those of
    these files alone."""
    parts = sorted(covered(crate, root).items())
    lines = [(it, sorted(crates(root)[it])) for it in sorted([*below(crate, root), crate])]
    tried = []
    for path in edits_of(crate, root) if only is None else only:
        with open(f"{root}/{path}", "rb") as file:
            tried.append((os.path.basename(path), file.read()))
    return hashlib.sha256(repr((kit(), lines, sorted(tried), parts)).encode(errors="surrogateescape")).hexdigest()


def recorded(root=ROOT):
    """Returns the recorded lines: the number of edits and the sum, by crate."""
    return {crate: (int(count), found) for crate, (count, found) in RECORDS.rows(root).items()}


def state_of(crate, root=ROOT):
    """Says whether the crate's line is `present`, `stale` or `absent` over today's text."""
    found = recorded(root).get(crate)
    return "absent" if not found else "present" if found == (len(edits_of(crate, root)), sum_of(crate, root)) else "stale"


def record(crate, line):
    """Writes the line of a crate, a number of edits and a sum, or removes it if there is none."""
    RECORDS.write(crate, line)
