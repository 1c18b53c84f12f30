#!/usr/bin/env python3
"""Counts the syncs, the bytes written and the time of visits by `places run`, beside the bare device calls.

    bench/commits.py [PROGRAM]

A first run is traced by strace, which gives each write and sync of the store's file. The peer makes the same calls on
another file of the same folder, with nothing between them. A run of as many `page` lines about the same pages shows what
looking them up takes. Each is timed without a trace, by turns, and of so many runs the least wall time is shown. It is no
timed test: it fails only where a program fails. It needs python3, and installs strace by `apt-get` where it is missing.
"""
import pathlib
import subprocess
import tempfile
import time

from device_calls import make_calls, traced_calls
from program import new_store, program

LINES = 1000
PAGES = 100
RUNS = 7


def url(number):
    return f"https://h{number % PAGES}.example/"


def script():
    return "".join(f"visit\t{url(i)}\t1\t{i}\n" for i in range(LINES)).encode()


def questions():
    return "".join(f"page\t{url(i)}\n" for i in range(LINES)).encode()


def timed(command, **options):
    start = time.monotonic()
    subprocess.run(command, check=True, stdout=subprocess.DEVNULL, **options)
    return time.monotonic() - start


def run_time(places, store):
    new_store(places, store)
    return timed([places, "run", store], input=script())


def look_up_time(places, store):
    """The time of the questions on a store that has the pages."""
    return timed([places, "run", store], input=questions())


def main():
    places, times = program(), []
    with tempfile.TemporaryDirectory(dir=".") as folder:
        work = pathlib.Path(folder)
        new_store(places, work / "traced")
        calls = traced_calls([places, "run", work / "traced"], script(), work / "trace")
        for number in range(RUNS):
            store = work / f"store{number}"
            times.append((run_time(places, store), make_calls(work / f"bare{number}", calls), look_up_time(places, store)))
    syncs, written = calls.count(None), sum(call[1] for call in calls if call)
    ours, bare, asked = map(min, zip(*times))
    print(f"{LINES} visits to {PAGES} pages: {syncs} syncs, {len(calls) - syncs} writes, {written} bytes written")
    print(f"{'':36}{'wall, s':>10}{'a line, ms':>12}{'of the bare calls':>20}")
    for name, took in (("visits by `places run`", ours), ("the bare device calls", bare), ("`page` lines about the pages", asked)):
        print(f"{name:36}{took:10.2f}{1000 * took / LINES:12.3f}{took / bare:20.2f}")


main()
