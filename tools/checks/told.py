"""Checks of tools/checks/program about the command line, and about what the program tells of it."""
import os
import re
import shutil
import subprocess

from examples import examples_of_help, examples_of_page, examples_of_readme
from files import new_folder
from listed import check
from repository import ROOT
from running import SECONDS, ldbtool, lines, under_test, want, want_answers, want_fault, want_ran
from scripts import MISUSES, OPTIONS, OTHER_OPTIONS, TOLD, TOLD_MISUSES, VERBS


# ---- the command line


def words_of(verb, folder):
    """Returns a verb with what it can't be without."""
    return [verb, folder, *{"get": ["61"], "put": ["61", "31"], "del": ["61"]}.get(verb, [])]


@check("a folder that is missing, or none, is said on standard error, with status 1")
def wrong_folders(room):
    with open(f"{room}/file", "wb"):
        pass
    for folder in (f"{room}/missing", f"{room}/file", f"{room}/file/below", ""):
        for verb in VERBS:
            ran = ldbtool(*words_of(verb, folder), script=b"open new\n")
            want_fault(ran, 1, f"{verb} over {folder!r}")
            said = "it isn't a folder" if "file" in folder else "there is no such folder"
            want(ran.stderr.decode(), f"ldbtool: {folder}: {said}\n", f"what {verb} over {folder!r} says")


@check("folders of any name that is UTF-8, and a clear refusal of others")
def names_of_folders(room):
    for name in (" a b ", "new\nline", "'\"$(x)", "\u6587\u5b57", "-x", "..."):
        folder = new_folder(room, name)
        want_answers(folder, "open new; put 61 31", "ok; ok")
        want_ran(ldbtool("check", "--", name, cwd=room), 0, lines("good", "last-sequence 1", "log 2 1 clean"), f"check of {name!r}")
    raw = os.fsencode(room) + b"/\xff"
    os.mkdir(raw)
    ran = ldbtool("check", raw)
    want((ran.returncode, ran.stdout, ran.stderr), (2, b"", b"ldbtool: a word of the command line isn't UTF-8\n"), "a name that isn't UTF-8")


@check("a wrong command line is said on standard error, with status 2")
def misuses(_room):
    for words in MISUSES:
        want_fault(ldbtool(*words), 2, f"the words {words}")


@check("what is wanted in the place of an order, a key or two options that go not together is said in one line, before a folder is opened")
def told_misuses(_room):
    for words, told in TOLD_MISUSES:
        ran = ldbtool(*words)
        said = ran.stderr.decode()
        want((ran.returncode, ran.stdout, said.count("\n"), said.startswith(f"ldbtool: {told}")), (2, b"", 1, True), f"the words {words}")


@check("no name or word that comes from outside steers a terminal: what isn't printable is said as its two digits")
def escaped_names(room):
    name, told = "\x1b[31mred\x07\n\x7f\u6587\x9f", "\\x1b[31mred\\x07\\x0a\\x7f\\xe6\\x96\\x87\\xc2\\x9f"
    for verb in VERBS:
        ran = ldbtool(*words_of(verb, name), cwd=room)
        want((ran.returncode, ran.stderr.decode()), (1, f"ldbtool: {told}: there is no such folder\n"), f"{verb} over a name that isn't printable")
    os.mkdir(f"{room}/{name}")
    ran = ldbtool("check", name, cwd=room)
    want((ran.stdout, ran.stderr.decode()), (b"empty\n", f"ldbtool: {told}: no CURRENT here: no database, or an empty one\n"), "check of such a folder")
    for words in ([name], [f"--{name}"], ["check", f"--{name}"], ["run", "--order", name, "DIR"], ["run", "--cache-blocks", name, "DIR"], ["check", "DIR", name], ["help", name]):
        ran = ldbtool(*words)
        want((ran.returncode, ran.stdout), (2, b""), f"the words {words}")
        want(all(it == 10 or 32 <= it <= 126 for it in ran.stderr), True, f"what is said of {words} is printable")


@check("each option takes the numbers from 1 to its greatest, and no other word")
def options(room):
    folder = new_folder(room)
    for name, default, most in OPTIONS:
        for number in (1, default, most):
            want_answers(folder, "get 61", "refused 16 NotOpen", f"--{name}", str(number))
            want_answers(folder, "get 61", "refused 16 NotOpen", f"--{name}={number}")
        for word in ("0", str(most + 1), "-1", "x", "", "1.5", str(2**64)):
            want_fault(ldbtool("run", f"--{name}={word}", folder), 2, f"--{name}={word}")
            want_fault(ldbtool("run", f"--{name}", word, folder), 2, f"--{name} {word!r}")
        for verb, printed in (("import", b"refused 20 BadLine\ntaken 0\n"), ("compact", b"refused 3 NoDatabase\n")):
            for number in (1, most):
                empty = new_folder(room, f"{verb} {name} {number}")
                want_ran(ldbtool(verb, f"--{name}", str(number), empty, script=b"open\n"), 1, printed, f"{verb} --{name} {number}")
            for word in ("0", str(most + 1), "x"):
                want_fault(ldbtool(verb, f"--{name}", word, folder), 2, f"{verb} --{name} {word!r}")


@check("the options' defaults and ranges stand in the help and on the manual page")
def told_options(_room):
    with open(f"{ROOT}/man/ldbtool.1", encoding="utf-8") as file:
        page = file.read().replace("\\-", "-")
    for verb, name, default, most in [*[(verb, *it) for verb in ("run", "import", "compact") for it in OPTIONS], *OTHER_OPTIONS]:
        told = ldbtool("help", verb).stdout.decode()
        for text, wanted in ((told, f"--{name} <N>.*from 1 to {most}.*\\[default: {default}\\]"), (page, f"--{name} .*(\n.*)?\nFrom 1 to {most}; {default} where")):
            want(bool(re.search(wanted, text)), True, f"--{name} of {verb} is told with its range and default")


@check("each verb stands in the synopsis, and each option of its help on the manual page")
def told_verbs(_room):
    with open(f"{ROOT}/man/ldbtool.1", encoding="utf-8") as file:
        page = file.read().replace("\\-", "-")
    synopsis = page.split(".SH SYNOPSIS")[1].split(".SH DESCRIPTION")[0]
    want(re.findall(r"^\.B ldbtool ([a-z]+)$", synopsis, re.M), [*VERBS, "help"], "the verbs of the synopsis")
    for verb in VERBS:
        found = re.findall(r"--[a-z0-9-]+", ldbtool("help", verb).stdout.decode().split("\nOptions:\n")[1].split("\n\n")[0])
        want({it for it in found if it not in page}, set(), f"options of {verb} that aren't on the page")
        want([it for it in ldbtool("help", verb).stdout.decode().splitlines() if len(it) > 100], [], f"lines of the help of {verb} that are too long")


@check("help and version go to standard output, with status 0")
def helps(_room):
    for words, told in TOLD:
        ran = ldbtool(*words.split())
        want((ran.returncode, ran.stderr, told in ran.stdout.decode()), (0, b"", True), f"{words} tells {told!r}")
    want([it for it in ldbtool("help").stdout.decode().splitlines() if len(it) > 100], [], "lines of the help that are too long")
    version = ldbtool("--version").stdout.decode()
    found = re.fullmatch(r"(ldbtool \d+\.\d+\.\d+) \((an unnamed build|(of no commit|commit [0-9a-f]{12}( with changes)?), proved)\)\n", version)
    want(bool(found), True, f"the version {version!r}")
    with open(f"{ROOT}/man/ldbtool.1", encoding="utf-8") as file:
        want(f'"{found[1]}"' in file.read(), True, "the manual page has this version")
    for words in (["--help"], ["-h"], ["help"], ["-V"], *[[verb, "--help"] for verb in VERBS]):
        ran = ldbtool(*words)
        want((ran.returncode, ran.stderr), (0, b""), f"the words {words}")
        want(words == ["-V"] or b"Exit status" in ran.stdout, True, f"{words} tells the statuses")
    for verb in VERBS:
        want(ldbtool("help", verb).stdout, ldbtool(verb, "--help").stdout, f"help {verb}")


@check("the manual page has every refusal with its number, and so has the help")
def told_refusals(_room):
    with open(f"{ROOT}/crates/coding/src/error.rt", encoding="utf-8") as file:
        source = file.read()
    numbers = dict(re.findall(r"DbError::(\w+)(?:\([_, ]*\))? => (\d+),", source))
    with open(f"{ROOT}/man/ldbtool.1", encoding="utf-8") as file:
        page = re.findall(r"^(\d+) (\w+)\tT\{$", file.read(), re.M)
    want(sorted(page), sorted((number, name) for name, number in numbers.items()), "the page's refusals")
    told = re.findall(r"(\d+) ([A-Z][A-Za-z]+)", ldbtool("help", "run").stdout.decode())
    want(set(page) - set(told), set(), "refusals that the help leaves out")


@check("the manual page is laid out without a warning, by groff and by mandoc, and each part that a user asks for is there")
def laid_out(_room):
    page = f"{ROOT}/man/ldbtool.1"
    eighty = {**os.environ, "LC_ALL": "C.UTF-8", "MANWIDTH": "80", "MANROFFSEQ": ""}
    commands = [["man", "--warnings", "-E", "UTF-8", "-l", "-Tutf8", "-Z", page], ["mandoc", "-T", "lint", "-W", "warning", page]]
    there = [it for it in commands if shutil.which(it[0])]
    for command in there:
        ran = subprocess.run(command, env=eighty, capture_output=True, text=True, timeout=SECONDS)
        want((ran.returncode, ran.stderr, ran.stdout if command[0] == "mandoc" else ""), (0, "", ""), f"what {command[0]} says of the page")
    with open(page, encoding="utf-8") as file:
        parts = re.findall(r"^\.SH (.*)$", file.read(), re.M)
    wanted = {"NAME", "SYNOPSIS", "OPTIONS", "WHAT OPEN WRITES", "WORK AND IMPORTS", "REFUSALS", "EXIT STATUS", "EXAMPLES", "FILES", "REPORTING BUGS", "SEE ALSO"}
    want(wanted - set(parts), set(), "parts that are missing")
    return f"by {' and '.join(it[0] for it in there)} alone" if len(there) < len(commands) else None


# ---- examples


def want_examples(room, found, least):
    """Runs commands and compares what they print, one after the other in one folder."""
    os.mkdir(f"{room}/bin")
    os.symlink(under_test(), f"{room}/bin/ldbtool")
    work = new_folder(room, "work")
    environment = {**os.environ, "PATH": f"{room}/bin:{os.environ['PATH']}"}
    for command, wanted in found:
        # (as both streams come at a terminal)
        ran = subprocess.run(["sh", "-c", command], cwd=work, env=environment, stdout=subprocess.PIPE, stderr=subprocess.STDOUT, text=True, timeout=SECONDS)
        want(ran.stdout, wanted, f"the example {command!r}")
    want(len(found) >= least, True, f"{len(found)} examples are all")


@check("the examples of the manual page print what they say")
def examples_page(room):
    want_examples(room, examples_of_page(), 30)


@check("the examples of the README print what they say")
def examples_readme(room):
    want_examples(room, examples_of_readme(), 7)


@check("the examples of the help print what they say")
def examples_help(room):
    told = {verb: ldbtool("help", verb).stdout.decode() for verb in ("run", *[it for it in VERBS if it != "run"])}
    want_examples(room, [it for verb in told for it in examples_of_help(told[verb])], 14)
