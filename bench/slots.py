#!/usr/bin/env python3
"""Times slots that are read, written and set, changed pages that are listed, and texts that are read, beside C.

    bench/slots.py             builds the proved program of crates/slots_main by `rt run`, and measures it
    bench/slots.py PROGRAM     measures this program

The peer is `slots.c`, which does the same on a plain array of structs and is built by gcc -O2. Each kind of work is done
so many times, and not at all: the difference of the least of three runs is the time of the work alone. It is no timed
test: it fails only where a program fails or the two print different sums. It needs gcc and python3.
"""
import os
import pathlib
import subprocess
import sys
import tempfile
import time

HOME = pathlib.Path(__file__).resolve().parent.parent
CRATE = HOME / "crates/slots_main"
RUNS = 3

FEW, MANY = 1_000, 80_000

# The word, how many slots or texts, how many times, and what is done.
WORK = [
    ("read", FEW, 10_000_000, "a row read, of 1,000 slots"),
    ("read", MANY, 10_000_000, "a row read, of 80,000"),
    ("write", FEW, 10_000_000, "a row written, of 1,000"),
    ("write", MANY, 10_000_000, "a row written, of 80,000"),
    ("field", FEW, 10_000_000, "a field set by its row, of 1,000"),
    ("field", MANY, 10_000_000, "a field set by its row, of 80,000"),
    ("link", FEW, 10_000_000, "a field set as a link, of 1,000"),
    ("link", MANY, 10_000_000, "a field set as a link, of 80,000"),
    ("texts", 100_000, 5_000_000, "a URL of 60 bytes read, of 100,000"),
]

# How many slots stores of 1, 10 and 80 MiB have: eight a page of 1,024 bytes, but for the first two.
STORES = [(size, 8 * (1024 * size - 2)) for size in (1, 10, 80)]
TOUCHES = 500_000


def program(words):
    if words:
        return words[0]
    subprocess.run(["rt", "run", "--", "read", "1", "0"], cwd=CRATE, check=True, stdout=sys.stderr)
    return str(CRATE / "out/slots_main")


def peer(room):
    built = pathlib.Path(room) / "slots"
    subprocess.run(["gcc", "-O2", "-o", built, HOME / "bench/slots.c"], check=True)
    return str(built)


def run(command):
    """What a run prints, and its wall and user time in seconds."""
    started = time.monotonic()
    child = subprocess.Popen(command, stdout=subprocess.PIPE)
    said = child.stdout.read().decode()
    _, status, usage = os.wait4(child.pid, 0)
    child.returncode = os.waitstatus_to_exitcode(status)
    if status != 0:
        sys.exit(f"{' '.join(command)} failed")
    return said, time.monotonic() - started, usage.ru_utime


def least(command):
    runs = [run(command) for _ in range(RUNS)]
    return runs[0][0], min(wall for _, wall, _ in runs), min(user for _, _, user in runs)


def took(programs, word, count, times):
    """The wall and user time of the work alone, of each program."""
    found = {}
    for told in (0, times):
        for name, path in programs.items():
            found[name, told] = least([path, word, str(count), str(told)])
        sums = {found[name, told][0] for name in programs}
        if len(sums) != 1:
            sys.exit(f"{word} {count} {told}: the sums differ: {sums}")
    return {name: [whole - none for whole, none in zip(found[name, times][1:], found[name, 0][1:])] for name in programs}


def machine():
    lines = pathlib.Path("/proc/cpuinfo").read_text().splitlines()
    model = next((line.split(":")[1].strip() for line in lines if line.startswith("model name")), "unknown")
    memory = pathlib.Path("/proc/meminfo").read_text().split()[1]
    load = ", ".join(f"{load:.1f}" for load in os.getloadavg())
    return f"{os.cpu_count()} processors ({model}), {int(memory) // 1024} MiB; load {load}"


def main():
    print(machine())
    with tempfile.TemporaryDirectory() as room:
        programs = {"slots_main": program(sys.argv[1:]), "C": peer(room)}
        print(f"\n{'millions a second, by user time':38}{'slots_main':>12}{'C':>10}{'C faster by':>13}{'by wall':>10}")
        for word, count, times, told in WORK:
            ours, theirs = took(programs, word, count, times).values()
            rates = [times / user / 1e6 for _, user in (ours, theirs)]
            print(f"{told:38}{rates[0]:12.1f}{rates[1]:10.1f}{ours[1] / theirs[1]:13.1f}{ours[0] / theirs[0]:10.1f}")
        print(f"\n{'ten changes and their pages listed':38}{'user, µs':>12}{'wall, µs':>10}")
        for size, count in STORES:
            wall, user = took(programs, "touched", count, TOUCHES)["slots_main"]
            print(f"{f'in a store of {size} MiB':38}{1e6 * user / TOUCHES:12.2f}{1e6 * wall / TOUCHES:10.2f}")
        print(f"\n{machine()}")


main()
