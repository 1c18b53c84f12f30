#!/usr/bin/env python3
"""Refuses the program each of its allocations in turn, and tells what it said and left.

    bench/refused.py [PROGRAM]

Each form of words has its run with ample memory first, in which `refused.c` counts the allocations. Then each number has
two runs on the same files: one in which this allocation alone is refused, and one in which each later one is too. Such a
run has to end with status 6 or to say the same as the first; or with status 5, where a call of the file wanted the memory.
At 6 and 5 `run` and `try` may have said whole replies and nothing else, the others nothing. The file has to hold the rows
after just as many lines then, by the reader of `linked_file.py`, or at 5 after one more: after an import or a restore none of it
or all, after an export or a backup all that was there, after a drill some of its lines. It needs a C compiler, and a program that
takes its memory from the system's C library. A file in memory, whose own growth may be refused too, is no part of it.
"""
import collections
import os
import pathlib
import shutil
import subprocess
import sys
import tempfile

from drill import SEED, drill
from linked_file import LinkedFile
from program import new_store, program

HOME = pathlib.Path(__file__).resolve().parent
DEVICE_FAULT, NO_MEMORY = 5, 6

SCRIPT = [b"visit\thttps://a.example/\t2\t0\n", b"visit\thttps://b.example/\t5\t1\t1\n", b"page\thttps://a.example/\n"]

BOOKMARKS = b"""<!DOCTYPE NETSCAPE-Bookmark-file-1>
<DL><p>
<DT><H3 ADD_DATE="1700000000" PERSONAL_TOOLBAR_FOLDER="true">Bookmarks bar</H3>
<DL><p>
<DT><A HREF="https://a.example/" ADD_DATE="1700000000">A &amp; B</A>
<DT><H3 ADD_DATE="1700000001">Sub</H3>
<DL><p>
<DT><A HREF="https://b.example/x" ADD_DATE="1700000003">B</A>
</DL><p>
</DL><p>
<DT><A HREF="https://c.example/" TAGS="red,Blue">D</A>
</DL><p>
"""

DRILL_LINES = 5


class Bench:
    def __init__(self, places, folder):
        self.places, self.folder = places, folder
        self.shim, self.count = folder / "refused.so", folder / "count"
        subprocess.run(["cc", "-O2", "-shared", "-fPIC", "-o", self.shim, HOME / "refused.c"], check=True)

    def run(self, words, store, data, refused=0, goes_on=False):
        """The status of a run on a copy of the store, what it said, the bytes it left and how many allocations it made."""
        file = self.folder / "store"
        file.unlink(missing_ok=True)
        if store is not None:
            file.write_bytes(store)
        self.count.write_bytes(bytes(8))
        room = {"LD_PRELOAD": str(self.shim), "REFUSED_COUNT": str(self.count), "REFUSED_AT": str(refused)}
        environment = {**os.environ, **room, **({"REFUSED_ON": "1"} if goes_on else {})}
        words = [str(file) if word == "FILE" else word for word in words]
        done = subprocess.run([self.places, *words], input=data, capture_output=True, env=environment)
        left = file.read_bytes() if file.exists() else None
        return done.returncode, done.stdout, left, int.from_bytes(self.count.read_bytes(), "little")

    def rows(self, store):
        """The rows of a file."""
        return LinkedFile(store).store() if store else None

    def after(self, store, lines):
        """The rows of a store's file after none of the lines and after each."""
        rows = [self.rows(store)]
        for line in lines:
            _, _, store, _ = self.run(["run", "FILE"], store, line)
            rows.append(self.rows(store))
        return rows


def held_by(replies, rows):
    """The rows that a run may leave which said this: those after as many lines as it says whole replies, or one more."""
    ends = [sum(map(len, replies[:count])) for count in range(len(replies) + 1)]

    def held(said, more):
        if len(said) not in ends or not b"".join(replies).startswith(said):
            return []
        lines = ends.index(len(said))
        return rows[lines:lines + 1 + more]
    return held


def unsaid(rows, later=()):
    """The rows that a run may leave which said nothing, and those that a call of the file which failed may leave too."""
    return lambda said, more: [] if said else [*rows, *(later if more else ())]


def refuse_all(bench, name, words, store, data, allowed):
    """Refuses each allocation of a run in turn. `allowed` tells the rows that may be left, by what was said."""
    status, said, left, allocations = bench.run(words, store, data)
    if status != 0:
        sys.exit(f"{name}: status {status} with ample memory")
    whole, ends = bench.rows(left), collections.Counter()
    for refused in range(1, allocations + 1):
        for goes_on in (False, True):
            status, told, file, _ = bench.run(words, store, data, refused, goes_on)
            if status == 0:
                good = told == said and bench.rows(file) == whole
            else:
                good = status in (NO_MEMORY, DEVICE_FAULT) and bench.rows(file) in allowed(told, status == DEVICE_FAULT)
            if not good:
                sys.exit(f"{name}, allocation {refused}{' and later ones' if goes_on else ''}: status {status}, said {told!r}, "
                         "or other rows than that allows")
            ends[status] += 1
    counted = ", ".join(f"{count} runs with status {status}" for status, count in sorted(ends.items()))
    print(f"{name}: {allocations} allocations, {counted}", flush=True)


def main():
    places = program()
    with tempfile.TemporaryDirectory(dir=".") as folder:
        bench, folder = Bench(places, pathlib.Path(folder)), pathlib.Path(folder)
        new_store(places, folder / "new")
        store = (folder / "new").read_bytes()
        script = b"".join(SCRIPT)
        replies = bench.run(["try"], None, script)[1].splitlines(keepends=True)
        rows = bench.after(store, SCRIPT)
        _, _, imported, _ = bench.run(["import", "FILE"], store, BOOKMARKS)
        drilled = bench.after(store, [f"{line}\n".encode() for line in drill(":memory:", "MEMORY", DRILL_LINES)[1]])
        first, there = bench.rows(store), bench.rows(imported)
        refuse_all(bench, "try", ["try"], None, script, held_by(replies, [None] * len(rows)))
        refuse_all(bench, "new", ["new", "FILE"], None, b"", unsaid([None], [first]))
        refuse_all(bench, "run", ["run", "FILE"], store, script, held_by(replies, rows))
        refuse_all(bench, "import", ["import", "FILE"], store, BOOKMARKS, unsaid([first], [there]))
        refuse_all(bench, "export", ["export", "FILE"], imported, b"", unsaid([there]))
        refuse_all(bench, "backup", ["backup", "FILE"], imported, b"", unsaid([there]))
        backup = bench.run(["backup", "FILE"], imported, b"")[1]
        restored = bench.rows(bench.run(["restore", "FILE"], imported, backup)[2])
        refuse_all(bench, "restore", ["restore", "FILE"], imported, backup, unsaid([there], [restored]))
        refuse_all(bench, "drill", ["drill", "FILE", str(DRILL_LINES), str(SEED)], store, b"", unsaid(drilled))


if __name__ == "__main__":
    main()
