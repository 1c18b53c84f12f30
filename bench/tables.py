#!/usr/bin/env python3
"""Prints the lines of scripts that stand in the crates of tests, or has `pairs_main` compare them.

    bench/tables.py | PROGRAM both script    all of them, one after another, on one pair of stores
    bench/tables.py PROGRAM                  those of each file on a pair of its own, and then all

The texts of the sources are read as the compiler reads them, and cut into lines; those that begin
with the word of a command and have not the form of a reply are taken. A gap that a test fills in
holds 1. It fails where the two engines differ, or where a command has no line.
"""
import collections
import pathlib
import re
import subprocess
import sys

HOME = pathlib.Path(__file__).resolve().parent.parent
WORDS = (b"day visit title page origin stats unvisit forget expire trim folder bookmark separator "
         b"move retitle remove tag untag list query place bar fill").split()
TOKEN = re.compile(rb"""//[^\n]*|b?'(?:\\[^\n]+?|[^\\'\n])'|b?"((?:[^"\\]|\\.)*)\"""", re.DOTALL)
ESCAPE = re.compile(rb"\\(?:x([0-9a-fA-F]{2})|u\{([0-9a-fA-F_]+)\}|\n\s*|(.))", re.DOTALL)
PLAIN = {b"n": b"\n", b"t": b"\t", b"r": b"\r", b"0": b"\0"}
GAP = re.compile(rb"\{\w*\}")
# What is told of a command, or of an item of a list, begins with the same words as a command.
REPLY = re.compile(rb"""visit\t\d+\tpage\t | day\t\d+\tchanged\t | page\t\d+\t-?\d+\t
    | stats\tpages\t | origin\t(?:[^\t]*\t){5}[^\t]*$ | fill\t[^\t]*\t\d+$
    | bookmark\t\d+\t[^\t]*\t[^\t]*$ | folder\t\d+\t[^\t]*\t$ | separator\t\d+\t\t$""", re.VERBOSE)


def decoded(escape):
    by_two, by_number, plain = escape.groups()
    if by_two:
        return bytes.fromhex(by_two.decode())
    if by_number:
        return chr(int(by_number, 16)).encode()
    return b"" if plain is None else PLAIN.get(plain, plain)


def texts(source):
    for token in TOKEN.finditer(source):
        if token[1] is not None:
            yield ESCAPE.sub(decoded, token[1])


def lines(source):
    for text in texts(source):
        for line in text.split(b"\n"):
            if line.split(b"\t")[0] in WORDS and not REPLY.match(line):
                yield GAP.sub(b"1", line)


def tables():
    """The lines of each file that has some."""
    for path in sorted(HOME.glob("crates/trials*/src/**/*.rt")):
        found = list(lines(path.read_bytes()))
        if found:
            yield str(path.relative_to(HOME / "crates")), found


def compare(program, name, script):
    text = b"\n".join(script) + b"\n"
    done = subprocess.run([program, "both", "script"], input=text, stdout=subprocess.PIPE)
    said = done.stdout.decode(errors="backslashreplace").strip()
    print(f"{name:44}{len(script):>6} lines, {said}", flush=True)
    return done.returncode == 0


def main():
    found = dict(tables())
    every = [line for script in found.values() for line in script]
    if len(sys.argv) == 1:
        sys.stdout.buffer.write(b"\n".join(every) + b"\n")
        return
    alike = [compare(sys.argv[1], name, script) for name, script in found.items()]
    alike.append(compare(sys.argv[1], "all of them", every))
    counts = collections.Counter(line.split(b"\t")[0] for line in every)
    print(", ".join(f"{word.decode()} {counts[word]}" for word in WORDS))
    if not all(alike) or len(counts) < len(WORDS):
        sys.exit("tables.py: the engines differ, or a command is missing")


if __name__ == "__main__":
    main()
