"""Finds the functions of a source: where their bodies stand, and what the prover calls them.

`rt fmt` lays the sources out, so a function ends at the first line with its own indentation and a
brace. Its body begins after the brace that ends its signature, or that stands alone after its
clauses. What is laid out otherwise has no function here.
"""
import re
from typing import NamedTuple

HEAD = re.compile(r"( *)(?:pub(?:\([^)]*\))? )?((?:const |unsafe |async )*)fn (\w+)")
BLOCK = re.compile(r"(?:pub(?:\([^)]*\))? )?(?:unsafe )?(impl\b|trait\b)(.*)")
CALL = re.compile(r"\b(\w+)(?:::<[^()]*>)?\(")


class Body(NamedTuple):
    """Holds a function of a source: the lines, counted from 0, of its head, its first statement and
    its closing brace."""

    name: str
    block: str
    head: int
    first: int
    end: int
    calls: frozenset


def without_parameters(text):
    """Returns the text without what stands between angle brackets."""
    found, depth = [], 0
    for it in text.replace("->", "  "):
        depth += it == "<"
        if not depth:
            found.append(it)
        depth -= it == ">"
    return "".join(found)


def owner(line):
    """Returns the start of the prover's name of a block at the left edge, and whether the name has
    more to it. That is `Bytes` for `impl Bytes`, and `BytesPartialEq` with more for
    `impl PartialEq for Bytes`. A block of another kind has none."""
    found = BLOCK.match(line)
    if not found or found[1] == "trait":
        return ""
    words = re.findall(r"[\w:]+", without_parameters(found[2]).partition("where")[0])
    names = [it.rpartition("::")[2] for it in words]
    if len(names) == 1:
        return names[0] + "::"
    return names[2] + names[0] if len(names) == 3 and names[1] == "for" else ""


def bodies(text):
    """Returns the functions of a source. It leaves out a function that the compiler may run, one
    that is proved together with others, and one of a trait. More than its own proof may depend on
    the body of such a function."""
    lines, found, block = text.split("\n"), [], ""
    for at, line in enumerate(lines):
        if line and line[0] not in " }/#":
            block = owner(line)
        head = HEAD.match(line)
        if not head or "const " in head[2] or line.endswith((";", "}")):
            continue
        indent = head[1]
        end = next((it for it in range(at + 1, len(lines)) if lines[it] == indent + "}"), None)
        opens = [it for it in range(at, end or at) if lines[it] == indent + "{" or (lines[it].endswith("{") and re.match(indent + r"[^ ]", lines[it]))]
        marks = [it for it in range(max(0, at - 6), at) if lines[it].startswith(f"{indent}#[cycle")]
        if end and opens and not marks and (indent == "" or (len(indent) == 4 and block)):
            calls = frozenset(CALL.findall("\n".join(lines[opens[0] + 1 : end])))
            found.append(Body(head[3], block if indent else "", at, opens[0], end, calls))
    return found


def module_of(path):
    """Returns the module of a source as a start of names: `a::b::` for src/a/b.rt."""
    inside = path.removeprefix("src/").removesuffix(".rt").removesuffix("/mod")
    return "" if inside in ("lib", "main", "mod") else inside.replace("/", "::") + "::"


def named(body, path, crate, functions):
    """Returns the prover's name of a function, out of the names of all, or nothing if that is
    unclear."""
    front = f"{crate}::{module_of(path)}"
    if not body.block or body.block.endswith("::"):
        whole = f"{front}{body.block}{body.name}"
        return whole if functions.count(whole) == 1 else ""
    found = [it for it in functions if re.fullmatch(re.escape(front + body.block) + r"\w*::" + body.name, it)]
    return found[0] if len(found) == 1 else ""
