#!/usr/bin/env python3
"""tools/respell.py: brings the repository's own definitions and lemmas to the spelling of today's library.

    python3 tools/respell.py        at the top, once, right after the port's scripts

Words are in snake case; a dash joins two names, and a plain word is added with `_`. The names stand in tools/respell.tsv, old and new, one pair a line.
Strings, the names of functions and files, and steps of the code that old proofs cite by their path stay as they are.
"""
import pathlib
import re

HERE = pathlib.Path(__file__).resolve().parent
TABLE = dict(line.split("\t") for line in (HERE / "respell.tsv").read_text().splitlines())
CAMEL = {a: b for a, b in TABLE.items() if re.match(r"[a-z][A-Za-z0-9]*[A-Z]", a)}
SPLIT = {a: b for a, b in TABLE.items() if a in CAMEL or "-" in a}
TOKEN = re.compile(r"--[^\n]*|//[^\n]*|\"(?:[^\"\\]|\\.)*\"|c(?:\.[^\s(){};,.@\"«»\[\]\\|:]+)+|[^\s(){};,.@\"«»\[\]\\|:]+")
VALUES = {"ensures", "requires", "invariant", "result", "given"}


def words(text, table):
    return re.sub(r"[A-Za-z][\w'-]*", lambda m: table.get(m[0], m[0]), text)


def path(text):
    """A path into what a proof knows: its steps stay, and the fields of a fact are words."""
    parts = text.split(".")
    facts = [i for i, part in enumerate(parts) if part in VALUES]
    start = facts[0] + 1 if facts else len(parts)
    return ".".join(parts[:start] + [TABLE.get(part, part) for part in parts[start:]])


def turn(text, table):
    def one(match):
        it = match[0]
        if it.startswith('"'):
            return it
        if it.startswith(("--", "//")):
            return words(it, CAMEL)
        if "." in it:
            return path(it)
        return table.get(it, it)

    return TOKEN.sub(one, text)


def modules_stay(line):
    return re.match(r"use Rattle\.\w+\.proofs\.[^{]*$", line)


for file in sorted(pathlib.Path("crates").rglob("*")):
    if file.suffix == ".antt" and "out" not in file.parts:
        old = file.read_text()
        new = "\n".join(line if modules_stay(line) else turn(line, TABLE) for line in old.split("\n"))
    elif file.suffix == ".rt" and "out" not in file.parts:
        old = file.read_text()
        new = turn(old, SPLIT)
    else:
        continue
    if new != old:
        file.write_text(new)
