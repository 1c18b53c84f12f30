#!/usr/bin/env python3
"""Kills `places run` with SIGKILL at random moments, and tells what its store's file holds then.

    bench/killed.py [PROGRAM]

Each time a new store is made, and a run over it says its replies into a file until it is killed. First these are visits
of one page: one more tells by its id and its frecency how many visits the file holds. Then they are the lines of
`pairs.py`, every command among them, and the rows of the file, by the reader of `linked_file.py`, are compared with those
after so many lines as were answered. The file has to hold each command whose reply was begun, and at most one more. Then
an import is killed, of which the file has to hold all or nothing, and all where its reply was begun; and a drill, of which
it has to hold the first so many lines, and all where the summary was begun. It is no part of the gate: a kill leaves what
the program wrote to the system's cache, and so shows less than a stop of the machine.
"""
import pathlib
import random
import subprocess
import sys
import tempfile
import time

from drill import SEED, drill
from imports import bookmark, file_of
from linked_file import LinkedFile
from pairs import script_of
from program import new_store, program

KILLS = 50
LINES = 400
BOOKMARKS = 2_000


def visit(date):
    return f"visit\thttps://a.example/\t1\t{date}\n"


def run(places, store, script, replies, words=("run",)):
    """The run of a script, or of other words on the store, which goes on."""
    with open(script, "rb") as lines, open(replies, "wb") as said:
        word, *more = words
        return subprocess.Popen([places, word, store, *more], stdin=lines, stdout=said, stderr=subprocess.DEVNULL)


def visits_held(places, store):
    """How many visits the file holds, by a visit more. Each of them is a link of the first day: 100 for each."""
    asked = subprocess.run([places, "run", store], input=visit(LINES).encode(), capture_output=True, check=True)
    word, visit_id, _, page, _, frecency = asked.stdout.decode().rstrip("\n").split("\t")
    if (word, page, int(frecency)) != ("visit", "1", 100 * int(visit_id)):
        sys.exit(f"a reply that no such store gives: {asked.stdout!r}")
    return int(visit_id) - 1


def kill_at_random(places, folder, name, script, moments, whole, words=("run",)):
    """The bytes that a run says of the script on a new store until it is killed, and the store's path."""
    store, replies = folder / f"store{name}", folder / f"replies{name}"
    new_store(places, store)
    going = run(places, store, script, replies, words)
    time.sleep(moments.uniform(0, whole))
    going.kill()
    going.wait()
    return replies.read_bytes(), store


def time_whole(places, folder, script, words=("run",)):
    """How long a whole run takes, and what it says."""
    store, replies = folder / "whole", folder / "said"
    store.unlink(missing_ok=True)
    new_store(places, store)
    start = time.monotonic()
    run(places, store, script, replies, words).wait()
    return time.monotonic() - start, replies.read_bytes()


def tell(what, seed, within, whole, counts):
    print(f"{what}, seed {seed}: {KILLS} kills, {within} of them before the last reply, a whole run took {whole:.2f} s")
    for outcome, count in counts.items():
        print(f"{outcome}: {count}")


# ---- visits of one page

def kill_visits(places, folder, seed):
    moments, script = random.Random(seed), folder / "visits"
    script.write_text("".join(visit(date) for date in range(LINES)))
    whole, _ = time_whole(places, folder, script)
    counts, within = {"held what was answered": 0, "held one more": 0}, 0
    for kill in range(KILLS):
        said, store = kill_at_random(places, folder, f"v{kill}", script, moments, whole)
        begun = said.count(b"\n") + (not said.endswith(b"\n") and said != b"")
        within += begun < LINES
        more = visits_held(places, store) - begun
        if more not in (0, 1):
            sys.exit(f"kill {kill}, seed {seed}: {begun} replies were begun, and {more} visits more are held")
        counts["held one more" if more else "held what was answered"] += 1
    tell("visits of one page", seed, within, whole, counts)


# ---- every command

def starts_of(said):
    """Where each reply begins: a number of rows has so many lines behind it."""
    starts, at, rows = [], 0, 0
    for line in said.splitlines(keepends=True):
        if rows == 0:
            starts.append(at)
            rows = int(line.split(b"\t")[1]) if line.startswith(b"rows\t") else 0
        else:
            rows -= 1
        at += len(line)
    return starts


def rows_held(places, store):
    """The rows of a file, once a run has brought to its end what the kill left."""
    subprocess.run([places, "run", store], input=b"", capture_output=True, check=True)
    return LinkedFile(store.read_bytes()).store()


def rows_after(places, folder, lines):
    """The rows of a new file after these lines."""
    store = folder / "part"
    store.unlink(missing_ok=True)
    new_store(places, store)
    subprocess.run([places, "run", store], input=b"".join(lines), capture_output=True, check=True)
    return rows_held(places, store)


def kill_all(places, folder, seed):
    moments, script = random.Random(seed), folder / "all"
    lines = [line for line in script_of(seed % 1000, LINES).splitlines(keepends=True) if line[:1] not in b"#\n"]
    script.write_bytes(b"".join(lines))
    whole, said = time_whole(places, folder, script)
    starts = starts_of(said)
    if len(starts) != len(lines):
        sys.exit(f"seed {seed}: {len(lines)} lines have {len(starts)} replies")
    counts, within = {"held what was answered": 0, "held one more": 0}, 0
    for kill in range(KILLS):
        told, store = kill_at_random(places, folder, f"a{kill}", script, moments, whole)
        if not said.startswith(told):
            sys.exit(f"kill {kill}, seed {seed}: other replies than those of a whole run")
        begun = sum(start < len(told) for start in starts)
        within += begun < len(lines)
        held = rows_held(places, store)
        if held == rows_after(places, folder, lines[:begun]):
            counts["held what was answered"] += 1
        elif held == rows_after(places, folder, lines[:begun + 1]):
            counts["held one more"] += 1
        else:
            sys.exit(f"kill {kill}, seed {seed}: {begun} replies were begun, and other rows are held than of so many or one more")
    tell("every command", seed, within, whole, counts)


# ---- an import, and a drill

def kill_import(places, folder, seed):
    moments, script = random.Random(seed), folder / "bookmarks"
    script.write_text(file_of(BOOKMARKS, bookmark))
    whole, said = time_whole(places, folder, script, ["import"])
    before, after = rows_after(places, folder, []), rows_held(places, folder / "whole")
    counts, within = {"held nothing of it": 0, "held all of it": 0}, 0
    for kill in range(KILLS):
        told, store = kill_at_random(places, folder, f"i{kill}", script, moments, whole, ["import"])
        within += not told
        held = rows_held(places, store)
        if not said.startswith(told) or held not in ((after,) if told else (before, after)):
            sys.exit(f"kill {kill}, seed {seed}: {told!r} was said of an import, and other rows are held")
        counts["held all of it" if held == after else "held nothing of it"] += 1
    tell("an import", seed, within, whole, counts)


def fronts_of(places, folder, lines):
    """The rows of a new file after none of the lines, and after each."""
    store = folder / "front"
    new_store(places, store)
    fronts = [rows_held(places, store)]
    for line in lines:
        subprocess.run([places, "run", store], input=line, capture_output=True, check=True)
        fronts.append(LinkedFile(store.read_bytes()).store())
    return fronts


def kill_drill(places, folder, seed):
    moments, script, words = random.Random(seed), folder / "nothing", ["drill", str(LINES), str(SEED)]
    script.write_bytes(b"")
    whole, said = time_whole(places, folder, script, words)
    fronts = fronts_of(places, folder, [f"{line}\n".encode() for line in drill(":memory:", "MEMORY", LINES)[1]])
    after = rows_held(places, folder / "whole")
    counts, within = {"held some of its lines": 0, "held all of them": 0}, 0
    for kill in range(KILLS):
        told, store = kill_at_random(places, folder, f"d{kill}", script, moments, whole, words)
        within += not told
        held = rows_held(places, store)
        if not said.startswith(told) or held not in ([after] if told else fronts):
            sys.exit(f"kill {kill}, seed {seed}: {told!r} was said of a drill, and other rows are held")
        counts["held all of them" if held == after else "held some of its lines"] += 1
    tell("a drill", seed, within, whole, counts)


def main():
    places, seed = program(), random.randrange(1 << 32)
    with tempfile.TemporaryDirectory(dir=".") as folder:
        kill_visits(places, pathlib.Path(folder), seed)
        kill_all(places, pathlib.Path(folder), seed)
        kill_import(places, pathlib.Path(folder), seed)
        kill_drill(places, pathlib.Path(folder), seed)


if __name__ == "__main__":
    main()
