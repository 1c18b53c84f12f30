#!/usr/bin/env python3
"""Times `places restore` of 50,000 rows with 98,000 tags onto as many, beside `places import` of them into a new store.

    bench/restores.py [PROGRAM]

A bookmark file is imported into a new store, whose backup is then restored onto it: so each page comes back, and each item goes
and is made anew. Of three runs of each the least time is told: the import, the restore, and an empty script on the store, which
is the opening alone. It fails where the backup behind a restore is another one. Wanted is a restore of at most twice the time of
an import; it is told, and no test.
"""
import pathlib
import subprocess
import sys
import tempfile
import time

from imports import bookmark, file_of
from program import new_store, program

ROWS = 50_000
RUNS = 3
MOST = 2


def run(words, data=b""):
    """What a run says, and its time in seconds."""
    start = time.monotonic()
    done = subprocess.run(words, input=data, capture_output=True)
    seconds = time.monotonic() - start
    if done.returncode:
        sys.exit(f"restores.py: {words}: status {done.returncode}, {done.stderr[:1000]!r}")
    return done.stdout, seconds


def imported(places, folder, data):
    """A store with the rows, and the least time of an import."""
    times = []
    for number in range(RUNS):
        store = pathlib.Path(folder, f"store{number}")
        new_store(places, store)
        times.append(run([places, "import", store], data)[1])
    return store, min(times)


def restored(places, store, backup):
    """The least time of a restore of the backup onto the store that it is of."""
    times = []
    for _ in range(RUNS):
        said, seconds = run([places, "restore", store], backup)
        if said.split(b"\t")[:3] != [b"restored", b"items", b"%d" % ROWS]:
            sys.exit(f"restores.py: {said!r}")
        times.append(seconds)
        if run([places, "backup", store])[0] != backup:
            sys.exit("restores.py: the backup behind the restore is another one")
    return min(times)


def main():
    places = program()
    with tempfile.TemporaryDirectory() as folder:
        store, importing = imported(places, folder, file_of(ROWS, bookmark).encode())
        backup, _ = run([places, "backup", store])
        opening = min(run([places, "run", store])[1] for _ in range(RUNS))
        restoring = restored(places, store, backup)
    times = restoring / importing
    print(f"{ROWS} rows with two tags for each bookmark, onto as many; the backup has {len(backup)} bytes")
    print(f"  places import {importing:.3f} s, places restore {restoring:.3f} s, of which the opening takes {opening:.3f} s")
    print(f"  a restore takes {times:.2f} times an import ({'' if times <= MOST else 'not '}at most {MOST} times),"
          f" beyond its opening {(restoring - opening) / importing:.2f} times")


if __name__ == "__main__":
    main()
