#!/usr/bin/env python3
"""Runs the commands of docs/TOUR.md, and compares what each block prints with the page, byte by byte.

    bench/tour.py [PROGRAM]
    PLACES_SQLITE=places.sqlite BOOKMARKS_HTML=bookmarks.html bench/tour.py [PROGRAM]

The `sh` blocks are run in their order by one shell, in a folder that is removed afterwards, with the program as
`places` on the PATH, and the tools for profiles beside it. What a block prints, on standard error too, is to be the
`text` block behind it, and nothing where there is none. Blocks marked `sh recipe` read the database of a Firefox profile
and its bookmarks: they are run where PLACES_SQLITE and BOOKMARKS_HTML name them, and need sqlite3. It ends with status 1
where a block differs, and tells each that does.
"""
import difflib
import os
import pathlib
import re
import subprocess
import sys
import tempfile

from program import HOME, program

PAGE = HOME / "docs/TOUR.md"
FENCED = re.compile(r"^```(.*)\n((?:(?!```).*\n)*)```$", re.MULTILINE)
BEHIND_A_BLOCK = b"\036"
TOOLS = ("from-firefox", "from-chromium")
PROFILE = ("PLACES_SQLITE", "BOOKMARKS_HTML")
SECONDS = 600


class Block:
    """Commands of the page, the line at which they begin, and what they are to print."""

    def __init__(self, line, commands, in_recipe):
        self.line, self.commands, self.in_recipe = line, commands, in_recipe
        self.wanted = None


def blocks_of(page):
    blocks = []
    for fenced in FENCED.finditer(page):
        kind, line = fenced[1], page.count("\n", 0, fenced.start()) + 2
        if kind in ("sh", "sh recipe"):
            blocks.append(Block(line, fenced[2], kind == "sh recipe"))
        elif kind == "text" and blocks and blocks[-1].wanted is None:
            blocks[-1].wanted = fenced[2]
        else:
            sys.exit(f"{PAGE}, line {line}: a block `{kind}` that follows no commands")
    if page.count("```") != 2 * (len(blocks) + sum(block.wanted is not None for block in blocks)):
        sys.exit(f"{PAGE}: a block does not end")
    return blocks


def run(places, blocks):
    """What each block printed, and what the shell printed behind the last one."""
    ending = f"printf '\\{BEHIND_A_BLOCK[0]:03o}'\n"
    script = "exec 2>&1\n" + "".join(block.commands + ending for block in blocks)
    with tempfile.TemporaryDirectory() as folder:
        work, commands = pathlib.Path(folder, "work"), pathlib.Path(folder, "bin")
        work.mkdir()
        commands.mkdir()
        (commands / "places").symlink_to(pathlib.Path(places).resolve(strict=True))
        for tool in TOOLS:
            (commands / tool).symlink_to(HOME / "tools" / tool)
        (commands / "tour").write_text(script)
        told = {"PATH": f"{commands}:{os.environ['PATH']}", "PLACES": str(commands / "places")}
        ran = subprocess.run(["sh", commands / "tour"], cwd=work, env={**os.environ, **told},
                             stdin=subprocess.DEVNULL, stdout=subprocess.PIPE, timeout=SECONDS)
    return ran.stdout.split(BEHIND_A_BLOCK)


def shown(text):
    """Its lines, with a mark for each TAB and each end of a line."""
    return [line.replace("\t", "⇥").replace("\n", "$") for line in text.splitlines(keepends=True)]


def differs(block, said):
    """Whether a block printed anything else, which is told."""
    wanted = block.wanted or ""
    if said == wanted.encode():
        return False
    print(f"{PAGE}, line {block.line}:")
    both = shown(wanted), shown(said.decode(errors="backslashreplace"))
    for line in difflib.unified_diff(*both, "the page", "the program", lineterm=""):
        print(f"    {line}")
    return True


def main():
    places = program()
    profile = {name: os.environ[name] for name in PROFILE if os.environ.get(name)}
    for name, path in profile.items():
        os.environ[name] = str(pathlib.Path(path).resolve(strict=True))
    every = blocks_of(PAGE.read_text())
    blocks = [block for block in every if len(profile) == len(PROFILE) or not block.in_recipe]
    *said, behind = run(places, blocks)
    different = sum(differs(block, text) for block, text in zip(blocks, said))
    if len(said) != len(blocks) or behind:
        sys.exit(f"{PAGE}: the shell ended in block {len(said) + 1} of {len(blocks)}, and printed {behind!r}")
    print(f"{len(blocks) - different} of {len(blocks)} blocks printed what the page says")
    if len(every) > len(blocks):
        print(f"{len(every) - len(blocks)} blocks of the recipe were not run, since {' or '.join(PROFILE)} names no file")
    sys.exit(1 if different else 0)


main()
