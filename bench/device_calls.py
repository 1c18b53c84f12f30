"""The writes and syncs of a program on a file, traced, and made again with nothing between them."""
import os
import re
import shutil
import subprocess
import sys
import time

WRITE = re.compile(r"pwrite64\((\d+), .*, (\d+), (\d+)\) += (\d+)$")
SYNC = re.compile(r"(?:fsync|fdatasync)\((\d+)\) += 0$")


def install_strace():
    if not shutil.which("strace"):
        subprocess.run("apt-get update && apt-get install -y strace", shell=True, check=True, stdout=sys.stderr)


def traced_calls(command, script, log):
    """The writes and syncs of a run, in order: an offset and a length, or none for a sync."""
    install_strace()
    trace = ["strace", "-f", "-s", "0", "-e", "trace=pwrite64,fsync,fdatasync", "-o", log]
    subprocess.run([*trace, *command], input=script, stdout=subprocess.DEVNULL, check=True)
    calls = []
    for line in log.read_text().splitlines():
        if write := WRITE.search(line):
            calls.append((int(write[3]), int(write[4])))
        elif SYNC.search(line):
            calls.append(None)
    return calls


def make_calls(path, calls):
    """The seconds that the same calls take on this file."""
    content = bytes(max(call[1] for call in calls if call))
    file = os.open(path, os.O_RDWR | os.O_CREAT)
    start = time.perf_counter()
    for call in calls:
        if call:
            os.pwrite(file, content[: call[1]], call[0])
        else:
            os.fsync(file)
    took = time.perf_counter() - start
    os.close(file)
    return took
