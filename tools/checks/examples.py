"""Reads the examples of the manual page, of the README and of the help: commands, each with what it
prints.

A command stands after '$ ', with the lines of its here-document `<<end` if it has one. What it
prints comes below.
"""
import os
import re
import subprocess
import textwrap

from repository import ROOT


def read(lines):
    """Returns the pairs of a command and its output, in their order."""
    found, wanted_end = [], False
    for line in lines:
        if wanted_end:
            found[-1][0] += f"{line}\n"
            wanted_end = line != "end"
        elif line.startswith("$ "):
            found.append([f"{line[2:]}\n", ""])
            wanted_end = line.endswith("<<end")
        elif found:
            found[-1][1] += f"{line}\n"
    return [tuple(it) for it in found]


def text_of(path):
    with open(f"{ROOT}/{path}", encoding="utf-8") as file:
        return file.read()


def examples_of_page():
    found = []
    for block in re.findall(r"^\.EX\n(.*?)^\.EE$", text_of("man/ldbtool.1"), re.M | re.S):
        for troff, character in (("\\-", "-"), ("\\(aq", "'"), ("\\e", "\\")):
            block = block.replace(troff, character)
        found += read(block.splitlines())
    return found


def examples_of_readme():
    """Returns those of the blocks that begin with a command. The program is the one in build/."""
    text = text_of("README.md").replace("build/ldbtool", "ldbtool")
    blocks = re.findall(r"(?:^    .*\n)+", text, re.M)
    return [it for block in blocks if block.startswith("    $ ") for it in read(textwrap.dedent(block).splitlines())]


def examples_of_help(told):
    """Returns those after the line `Examples:` or `Example:`."""
    behind = re.split(r"^Examples?:\n", told, flags=re.M)[1]
    return read(textwrap.dedent(behind).rstrip("\n").splitlines())


def recipes_of_guide():
    """Returns the recipes of docs/GUIDE.md by their numbers: what a user pastes into bash."""
    found = re.findall(r"^(\d+)\\\. .*(?:\n.+)*\n\n((?:    .*\n)+)", text_of("docs/GUIDE.md"), re.M)
    return {int(number): textwrap.dedent(block) for number, block in found}


def ran_recipe(number, program, folder):
    """Runs a recipe in a folder, with this program as ldbtool, and with Debian's python3."""
    tools = f"{folder}/.bin"
    if not os.path.isdir(tools):
        os.mkdir(tools)
        os.symlink(program, f"{tools}/ldbtool")
        os.symlink("/usr/bin/python3", f"{tools}/python3")
    environment = {**os.environ, "PATH": f"{tools}:{os.environ['PATH']}"}
    how = {"cwd": folder, "env": environment, "stdin": subprocess.DEVNULL, "capture_output": True, "text": True}
    return subprocess.run(["bash", "-c", recipes_of_guide()[number]], timeout=60, check=False, **how)
