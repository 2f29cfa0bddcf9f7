"""Which crates of tests a gate has proved and run, as bugs/passed.txt records it, and over which
text.

The sum covers all that such a crate is made of: its sources, definitions and proofs, those of every
crate below, bodies too, the lines of all these in crates.txt, and the kit. It leaves out comments
of sources and definitions, as in refused.py. If anything has changed that a test could tell or that
its proof rests on, tools/gate proves the crate and runs it natively. Otherwise it tries it by
`rt try`, which compiles it with checks at run time.
"""
import hashlib

from records import Records
from refused import kit, read
from repository import ROOT, below, crates

RECORDS = Records("bugs/passed.txt", """\
# The crates of tests that were proved, and whose tests passed, over the present text: the crate, and a sum of all that it is made of
# (tools/proofs/passed.py says of what). tools/gate writes the line of each that it has proved; never write one by hand. It proves no crate that has
# the present sum, and tries its tests by rt try.
""")  # fmt: skip


def crates_of_tests(root=ROOT):
    return [it for it in crates(root) if it.endswith("_tests")]


def sum_of(crate, root=ROOT):
    """Returns the sum of all that a crate of tests is made of."""
    made_of = [*below(crate, root), crate]
    texts = [(it, part, sorted(read(root, it, part).items())) for it in made_of for part in ("src", "specs", "proofs")]
    lines = [(it, sorted(crates(root)[it])) for it in made_of]
    return hashlib.sha256(repr((kit(), lines, texts)).encode(errors="surrogateescape")).hexdigest()


def is_present(crate, root=ROOT):
    return RECORDS.rows(root).get(crate) == (sum_of(crate, root),)


def record(crate, found):
    RECORDS.write(crate, (found,))
