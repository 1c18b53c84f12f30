#!/usr/bin/env python3
"""Times the calls of rows in linked slots, group by group, at 1,000, 10,000 and 100,000 pages, by `rows_main`.

    bench/rows.py             builds the proved program of crates/rows_main by `rt run`, and measures it
    bench/rows.py PROGRAM     measures this program

Each run puts bookmark files and visits into new rows, and then does one round of calls so many times, or not at all:
the difference of the least of three runs is the time of the rounds alone. A growth of 1 says that a round takes the
same however many pages there are. Beside them stand rows over vectors, where a round is cheap enough. It is no timed
test: it fails only where a program fails, or where the two forms print different sums.
"""
import os
import pathlib
import subprocess
import sys
import tempfile
import time

from imports import IN_FOLDER, bookmark, file_of

HOME = pathlib.Path(__file__).resolve().parent.parent
CRATE = HOME / "crates/rows_main"
SIZES = (1_000, 10_000, 100_000)
MOST_ROWS = 50_000
RUNS = 3

# The word, how many rounds on linked rows, how many on vectors of 1,000 pages, and of 10,000.
WORK = [
    ("pages", 400_000, 2_000, 200),
    ("visits", 400_000, 1_000, 100),
    ("items", 400_000, 1_000, 100),
    ("texts", 400_000, 2_000, 200),
    ("whole", 2_000_000, 20_000, 20_000),
    ("marks", 400_000, 2_000, 200),
    ("titles", 200_000, 2_000, 200),
    ("visit-changes", 200_000, 1_000, 100),
    ("item-changes", 100_000, 300, 0),
    ("page-changes", 200_000, 2_000, 200),
]


def program(words):
    if words:
        return words[0]
    subprocess.run(["rt", "run"], cwd=CRATE, check=True, stdin=open(CRATE / "stdin", "rb"), stdout=sys.stderr)
    return str(CRATE / "out/rows_main")


def files(pages):
    """Bookmark files with so many pages, a NUL byte between two, and how many rows they have."""
    parts, rows, done = [], 0, 0
    while done < pages:
        left = pages - done
        count = min(MOST_ROWS, left + -(-left // (IN_FOLDER - 1)))
        parts.append(file_of(count, lambda number, first=rows: bookmark(number + first)))
        rows += count
        done += count - -(-count // IN_FOLDER)
    return "\0".join(parts).encode(), rows


def run(command, data):
    """What a run prints, its user time in seconds and its peak of memory in MiB."""
    with open(data, "rb") as stdin:
        child = subprocess.Popen(command, stdin=stdin, stdout=subprocess.PIPE)
        said = child.stdout.read().decode()
        _, status, usage = os.wait4(child.pid, 0)
    child.returncode = os.waitstatus_to_exitcode(status)
    if status != 0:
        sys.exit(f"{' '.join(command)} failed")
    return said, usage.ru_utime + usage.ru_stime, usage.ru_maxrss / 1024


def least(command, data):
    runs = [run(command, data) for _ in range(RUNS)]
    return runs[0][0], min(took for _, took, _ in runs), max(peak for _, _, peak in runs)


def round_time(path, form, word, times, data):
    """The time of a round in seconds."""
    whole, none = (least([path, form, word, str(count)], data)[1] for count in (times, 0))
    return (whole - none) / times


def compare(path, word, times, data):
    """Both forms print the same sum."""
    sums = {run([path, form, word, str(times)], data)[0] for form in ("linked", "flat")}
    if len(sums) != 1:
        sys.exit(f"{word}, {times} times: the sums differ: {sums}")


def machine():
    lines = pathlib.Path("/proc/cpuinfo").read_text().splitlines()
    model = next((line.split(":")[1].strip() for line in lines if line.startswith("model name")), "unknown")
    memory = pathlib.Path("/proc/meminfo").read_text().split()[1]
    load = ", ".join(f"{load:.1f}" for load in os.getloadavg())
    return f"{os.cpu_count()} processors ({model}), {int(memory) // 1024} MiB; load {load}"


def tell_builds(path, inputs):
    print(f"\n{'pages':>9}{'rows':>9}{'build, s':>10}{'a row, µs':>11}{'peak, MiB':>11}")
    for size, (data, rows) in inputs.items():
        _, took, peak = least([path, "linked", "whole", "0"], data)
        print(f"{size:>9}{rows:>9}{took:>10.2f}{1e6 * took / rows:>11.2f}{peak:>11.0f}")


def tell_rounds(path, inputs):
    heads = [f"{size:>9}{'':7}" for size in SIZES] + [f"{f'flat {size}':>13}" for size in SIZES[:2]]
    print(f"\n{'a round, ns':16}{''.join(heads)}")
    for word, times, *flat in WORK:
        row, before = f"{word:16}", None
        for size in SIZES:
            took = round_time(path, "linked", word, times, inputs[size][0])
            grown = "" if before is None else f"x {took / before:.2f}"
            row, before = row + f"{1e9 * took:>9.0f}{grown:>7}", took
        for size, few in zip(SIZES, flat):
            if few:
                compare(path, word, few, inputs[size][0])
                row += f"{1e9 * round_time(path, 'flat', word, few, inputs[size][0]):>13.0f}"
        print(row, flush=True)


def main():
    print(machine())
    path = program(sys.argv[1:])
    started = time.monotonic()
    with tempfile.TemporaryDirectory() as room:
        inputs = {}
        for size in SIZES:
            data, rows = files(size)
            inputs[size] = pathlib.Path(room) / str(size), rows
            inputs[size][0].write_bytes(data)
        tell_builds(path, inputs)
        tell_rounds(path, inputs)
    print(f"\n{machine()}; {time.monotonic() - started:.0f} s")


main()
