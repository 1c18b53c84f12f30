#!/usr/bin/env python3
"""Times the reading of JSON backups by `json_main`, beside the `json` of Python on the same bytes.

    bench/backups_read.py [READER]

READER is by default crates/json_main/out/json_main, which `rt ci json_main` builds: it reads a backup from standard input, and
says how many nodes each root has. Read are a backup of 15 MB with 50,000 nodes in folders of fifty; three files of the most
bytes, of `{"":0}`, of `[]` and of `0` in one array, which are no backups; and four with which a reader that goes through a part
of the file again and again would take the square of its length: values in each other, one long text, an object of many keys,
and an object with one key again and again. Of three runs the least time is told, and the peak of memory of one more, by
`/usr/bin/time`, in times of the file. It fails where the reader does not say what is wanted; the times are told, and no test.
"""
import json
import pathlib
import subprocess
import sys
import tempfile
import time

HOME = pathlib.Path(__file__).resolve().parent.parent
MOST = 16_777_215
NODES, IN_FOLDER, LENGTH = 50_000, 50, 15_000_000
RUNS = 3
NO_JSON, NO_BACKUP = b"no backup: no JSON\n", b"no backup: no children\n"


def backup():
    """A backup with so many nodes, and so many bytes or a few more."""
    each = LENGTH // NODES
    folders = []
    for first in range(0, NODES, IN_FOLDER):
        rows = []
        for number in range(first + 1, first + IN_FOLDER):
            row = {"dateAdded": 1_600_000_000_000_000 + number, "lastModified": 1_700_000_000_000_000 + number,
                   "tags": f"news,tag{number % 7}", "title": f"Page & \"number\" {number} é ", "type": "text/x-moz-place", "typeCode": 1,
                   "uri": f"https://www.example{number % 997}.org/a/path/{number}?query={number}"}
            row["title"] += "x" * max(0, each + 2 - len(json.dumps(row, ensure_ascii=False, separators=(",", ":")).encode()))
            rows.append(row)
        folders.append({"children": rows, "title": f"Folder {first // IN_FOLDER}", "type": "text/x-moz-place-container", "typeCode": 2})
    top = {"children": [{"children": folders, "guid": "menu________", "typeCode": 2}], "guid": "root________", "typeCode": 2}
    return json.dumps(top, ensure_ascii=False, separators=(",", ":")).encode()


def filled(first, each, last):
    """The most bytes of these, one behind another with commas, between the first and the last."""
    return first + b",".join([each] * ((MOST - len(first) - len(last) + 1) // (len(each) + 1))) + last


def many_keys():
    return b'{"children":[],' + b",".join(b'"%x":0' % number for number in range(1_300_000)) + b"}"


def files():
    """Each file by its name, with what the reader says of it."""
    yield f"backup, {NODES} nodes", backup(), b"%d\n0\n0\n0\nskipped 0\n" % NODES
    yield 'array of `{"":0}`', filled(b"[", b'{"":0}', b"]"), NO_BACKUP
    yield "array of `[]`", filled(b"[", b"[]", b"]"), NO_BACKUP
    yield "array of `0`", filled(b"[", b"0", b"]"), NO_BACKUP
    yield "arrays in each other", b"[" * (MOST // 2) + b"]" * (MOST // 2), NO_JSON
    yield "arrays 126 deep", filled(b"[", b"[" * 125 + b"]" * 125, b"]"), NO_BACKUP
    yield "a long text", b'{"children":[],"x":"' + b"\\n" * (MOST // 2 - 20) + b'"}', b"0\n0\n0\n0\nskipped 0\n"
    yield "an object of many keys", many_keys(), b"0\n0\n0\n0\nskipped 0\n"
    yield "one key again and again", filled(b'{"children":[],', b'"x":0', b"}"), b"0\n0\n0\n0\nskipped 0\n"


def timed(reader, file, wanted):
    """The least time of some runs in seconds, and the peak of one more in bytes."""
    least = float("inf")
    for _ in range(RUNS):
        with file.open("rb") as data:
            start = time.monotonic()
            said = subprocess.run([reader], stdin=data, capture_output=True, check=True).stdout
            least = min(least, time.monotonic() - start)
        if said != wanted:
            sys.exit(f"backups_read.py: {file.name}: {said[:200]!r}")
    with file.open("rb") as data:
        told = subprocess.run(["/usr/bin/time", "-f", "%M", reader], stdin=data, capture_output=True, check=True).stderr
    return least, int(told.split()[-1]) * 1024


def by_python(data):
    """The least time of `json.loads`; none where it refuses the file, as what is nested too deep."""
    least = float("inf")
    for _ in range(RUNS):
        start = time.monotonic()
        try:
            json.loads(data)
        except RecursionError:
            return None
        least = min(least, time.monotonic() - start)
    return least


def main():
    reader = sys.argv[1] if len(sys.argv) > 1 else HOME / "crates/json_main/out/json_main"
    print("| File | MB | `json_main`, s | peak / file | Python's `json`, s |\n|---|---|---|---|---|")
    with tempfile.TemporaryDirectory() as folder:
        for name, data, wanted in files():
            file = pathlib.Path(folder, "file")
            file.write_bytes(data)
            seconds, peak = timed(reader, file, wanted)
            theirs = by_python(data)
            peer = "refused" if theirs is None else f"{theirs:.2f}"
            print(f"| {name} | {len(data) / 1e6:.1f} | {seconds:.2f} | {peak / len(data):.1f} | {peer} |", flush=True)


if __name__ == "__main__":
    main()
