"""Where the prose of a file stands, by the kind of file, for tools/proofs/prose.

A piece is a paragraph, a list item, a table's cell or a block of a comment: a list of line
numbers with the text of each line. Sentences don't go from one piece into the next.
"""
import io
import re
import tokenize

LIST_ITEM = re.compile(r"\s*(?:[-*+]|\d+\\?[.)])\s+")
PRAGMA = re.compile(r"(?:noqa|fmt|pylint|type):|!")
INDENTED = ("    ", "\t")


def is_wide_source(name):
    """Whether it has contracts or definitions, whose lines are held to a width of their own."""
    return name.startswith("crates/") and (name.endswith(".rt") or name.endswith(".antt") and "/specs/" in name)


class Pieces:
    """Collects lines into pieces."""

    def __init__(self):
        self.done, self.open = [], []

    def end(self):
        if self.open:
            self.done.append(self.open)
        self.open = []

    def add(self, number, line):
        self.open.append((number, line))

    def alone(self, number, line):
        self.end()
        self.add(number, line)
        self.end()


class Block:
    """Markdown, or the text of a comment, which is laid out in the same way."""

    def __init__(self, pieces, every, tables):
        self.pieces, self.every, self.tables = pieces, every, tables
        self.fenced, self.was_code, self.was_blank = False, False, True

    def take(self, number, line):
        stripped = line.strip()
        is_code = line.startswith(INDENTED) and (self.was_blank or self.was_code)
        if stripped.startswith("```"):
            self.fenced = not self.fenced
            self.pieces.end()
        elif self.fenced or is_code:
            if self.every:
                self.pieces.alone(number, line)
        elif not stripped:
            self.pieces.end()
        else:
            self.take_text(number, stripped)
        self.was_code = is_code or self.was_code and not stripped
        self.was_blank = not stripped

    def take_text(self, number, stripped):
        text = stripped.removeprefix("> ")
        if text.startswith("|"):
            for cell in ([text] if self.tables else text.strip("|").split("|")):
                self.pieces.alone(number, cell)
        elif text.startswith("#"):
            self.pieces.alone(number, text.lstrip("# "))
        else:
            if LIST_ITEM.match(text):
                self.pieces.end()
                text = LIST_ITEM.sub("", text, count=1)
            self.pieces.add(number, text)


def of_markdown(text, every, tables):
    pieces = Pieces()
    block = Block(pieces, every, tables)
    for number, line in enumerate(text.splitlines(), 1):
        block.take(number, line)
    pieces.end()
    return pieces.done


def of_comments(text, mark):
    """Comments of whole lines, and those at the end of a line of code."""
    pieces, block = Pieces(), None
    whole = re.compile(rf"\s*(?:{mark})(?: (.*)|)$")
    after = re.compile(rf"^[^\"]*(?:\"[^\"]*\"[^\"]*)*\s(?:{mark}) (.*)$")
    for number, line in enumerate(text.splitlines(), 1):
        found = whole.match(line)
        if not found:
            block = None
            found = after.match(line)
            pieces.end()
            if found:
                pieces.alone(number, found[1])
            continue
        said = found[1] or ""
        block = block or Block(pieces, False, False)
        if said.startswith("--"):
            pieces.alone(number, said.lstrip("- "))
        else:
            block.take(number, said)
    pieces.end()
    return pieces.done


def of_c(text):
    """Comments of C, C++ and Go: of lines, and between /* and */."""
    found = of_comments(text, "//+")
    pieces, inside = Pieces(), False
    for number, line in enumerate(text.splitlines(), 1):
        said = line
        if not inside and "/*" in line and '"' not in line.split("/*")[0]:
            inside, said = True, line.split("/*", 1)[1]
        if inside:
            inside = "*/" not in said
            said = said.split("*/")[0].strip().removeprefix("*").strip()
            pieces.add(number, said)
        if not inside or not said:
            pieces.end()
    pieces.end()
    return found + pieces.done


def docstrings_of(text):
    """Tokens of comments, and of strings that are a statement of their own."""
    comments, strings, before = [], [], None
    for token in tokenize.generate_tokens(io.StringIO(text).readline):
        if token.type == tokenize.COMMENT:
            comments.append(token)
        elif token.type == tokenize.STRING and before in (None, tokenize.NEWLINE, tokenize.INDENT):
            strings.append(token)
        if token.type not in (tokenize.COMMENT, tokenize.NL, tokenize.DEDENT, tokenize.ENCODING):
            before = token.type
    return comments, strings


def of_python(text):
    comments, strings = docstrings_of(text)
    pieces, block, last = Pieces(), None, (0, 0)
    for token in comments:
        said = token.string.lstrip("#")
        if PRAGMA.match(said.strip()):
            continue
        if token.start != (last[0] + 1, last[1]):
            pieces.end()
            block = Block(pieces, True, False)
        block.take(token.start[0], said.removeprefix(" "))
        last = token.start
    pieces.end()
    for token in strings:
        block = Block(pieces, True, False)
        for number, line in enumerate(token.string.strip("\"'").splitlines(), token.start[0]):
            block.take(number, line.removeprefix(" " * token.start[1]))
        pieces.end()
    return pieces.done


ROFF = [(re.compile(r"\\f[BIRP]"), ""), (re.compile(r"\\\(aq"), "'"), (re.compile(r"\\([-e&])"), r"\1")]


def of_manual(text):
    """Lines of text, and of the macros that set words in another font."""
    pieces, is_example = Pieces(), False
    for number, line in enumerate(text.splitlines(), 1):
        macro = re.match(r"[.'](\S*)\s*(.*)", line)
        name, said = (macro[1], macro[2]) if macro else ("", line)
        if name in ("EX", "EE", "TS", "TE", "nf", "fi"):
            is_example = name in ("EX", "TS", "nf")
            pieces.end()
        elif not is_example and name in ("", "B", "I", "BR", "RB", "IR", "RI", "BI", "IB"):
            for form, plain in ROFF:
                said = form.sub(plain, said)
            pieces.add(number, said.replace('"', ""))
        elif not is_example:
            pieces.end()
    pieces.end()
    return pieces.done


def pieces_of(name, text, every=False, tables=False):
    """The pieces of a file: none where it is of a kind that has no prose."""
    if name.endswith(".md"):
        return of_markdown(text, every, tables)
    if name.endswith(".rt"):
        return of_comments(text, "//[/!]?")
    if name.endswith(".antt"):
        return of_comments(text, "--")
    if name.endswith((".c", ".cc", ".h", ".go", ".rs")):
        return of_c(text)
    if name.endswith(".py") or text.startswith("#!/usr/bin/env python3"):
        return of_python(text)
    if name.endswith((".sh", "Makefile", ".bash", ".mk")) or text.startswith("#!/"):
        return of_comments(text, "#+(?!!)")
    return of_manual(text) if re.search(r"\.[1-9]$", name) else []
