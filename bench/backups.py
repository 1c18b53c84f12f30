#!/usr/bin/env python3
"""Times `places backup` of 50,000 bookmarks with tags, beside the `json` of Python on the same text.

    bench/backups.py [PROGRAM]

The bookmarks are imported in two halves, in folders of fifty. Of three runs of each the least time is told: the backup, an
empty script on the same store, which is the opening alone, and in Python reading the text, and writing the value that was
read. It fails where Python would write another text, or where a node is not as it was put in. The time is wanted below half a
second; it is told, and no test.
"""
import json
import pathlib
import subprocess
import sys
import tempfile
import time

from imports import DOCTYPE, IN_FOLDER, bookmark, url
from program import new_store, program

BOOKMARKS = 50_000
RUNS = 3
WANTED = 0.5
SECOND = 1_000_000


def half(first):
    """A file with half of the bookmarks, from this number on."""
    parts = [DOCTYPE]
    for number in range(first, first + BOOKMARKS // 2):
        if number % IN_FOLDER == 0:
            parts.append(f"<DT><H3>Folder {number // IN_FOLDER}</H3>\n<DL><p>\n")
        parts.append(bookmark(number))
        if number % IN_FOLDER == IN_FOLDER - 1:
            parts.append("</DL><p>\n")
    return "".join(parts + ["</DL><p>\n"]).encode()


def run(words, data=b""):
    """What a run says, and its time in seconds."""
    start = time.monotonic()
    done = subprocess.run(words, input=data, capture_output=True)
    seconds = time.monotonic() - start
    if done.returncode:
        sys.exit(f"backups.py: {words}: status {done.returncode}, {done.stderr[:1000]!r}")
    return done.stdout, seconds


def least(work):
    """What this gives, and the least time of so many."""
    done = []
    for _ in range(RUNS):
        start = time.monotonic()
        value = work()
        done.append(time.monotonic() - start)
    return value, min(done)


def node(number):
    return {"dateAdded": (1600000000 + number) * SECOND, "lastModified": (1700000000 + number) * SECOND,
            "tags": f"news,tag{number % 7}", "title": f"Page & {number}", "type": "text/x-moz-place", "typeCode": 1,
            "uri": url(number)}


def check(top):
    """That the folders of the menu hold the bookmarks, as they were put in."""
    menu, *others = top["children"]
    numbers = iter(range(BOOKMARKS))
    for place, folder in enumerate(menu["children"]):
        if folder["title"] != f"Folder {place}" or folder["children"] != [node(next(numbers)) for _ in range(IN_FOLDER)]:
            sys.exit(f"backups.py: folder {place} is not as it was put in")
    if next(numbers, None) is not None or any(root["children"] for root in others):
        sys.exit("backups.py: other bookmarks than were put in")


def main():
    places = program()
    with tempfile.TemporaryDirectory() as folder:
        store = pathlib.Path(folder, "store")
        new_store(places, store)
        for first in (0, BOOKMARKS // 2):
            run([places, "import", store], half(first))
        (text, _), backup = least(lambda: run([places, "backup", store]))
        _, opening = least(lambda: run([places, "run", store]))
    top, reading = least(lambda: json.loads(text))
    written, writing = least(lambda: json.dumps(top, ensure_ascii=False, separators=(",", ":"), sort_keys=True))
    if f"{written}\n".encode() != text:
        sys.exit("backups.py: Python writes another text of the same value")
    check(top)
    print(f"{BOOKMARKS} bookmarks with two tags each, {len(text)} bytes")
    print(f"  places backup {backup:.3f} s ({'' if backup < WANTED else 'not '}below {WANTED} s), opening alone {opening:.3f} s")
    print(f"  Python's json: reading {reading:.3f} s, writing {writing:.3f} s")


if __name__ == "__main__":
    main()
