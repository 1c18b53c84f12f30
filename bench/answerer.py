"""A program that answers each line of a pipe as it comes, and how long its lines take."""
import subprocess
import sys
import time

# A line that is no command: what it takes is the way there and back, and little else.
NO_COMMAND = b"none\n"

RUNS, SPAN, MOST_AT_A_TIME = 7, 0.001, 32

# So many lines of a hundred bytes, or their replies, have room in a pipe.
LINES_AT_A_TIME = 500


def is_whole(said):
    """Whether a reply stands there with all its rows."""
    first = said.partition(b"\n")[0].split(b"\t")
    rows = int(first[1]) if first[0] == b"rows" else 0
    return said.count(b"\n") == rows + 1


class Answerer:
    def __init__(self, *command):
        self.command = command
        self.child = subprocess.Popen(command, stdin=subprocess.PIPE, stdout=subprocess.PIPE, bufsize=0)
        self.passages = {}

    def read(self):
        said = self.child.stdout.read(1 << 16)
        if not said:
            sys.exit(f"{self.command} ended with {self.child.wait()}")
        return said

    def reply(self, line):
        self.child.stdin.write(line)
        said = self.read()
        while not is_whole(said):
            said += self.read()
        return said

    def feed(self, lines):
        """Has lines answered that have a reply of one line each, and passes it over."""
        for at in range(0, len(lines), LINES_AT_A_TIME):
            some = lines[at:at + LINES_AT_A_TIME]
            self.child.stdin.write(b"".join(some))
            left = len(some)
            while left > 0:
                left -= self.read().count(b"\n")

    def timed(self, lines):
        """The reply to each of the lines, and how long each waits for it, in seconds."""
        for line in lines:
            start = time.perf_counter()
            said = self.reply(line)
            yield said, time.perf_counter() - start

    def wait(self, line, size, times):
        """How long it takes to answer a line so many times, where the lines come at once: the least of some runs."""
        return min(self.waits(line * times, size * times) for _ in range(RUNS))

    def waits(self, lines, left):
        start = time.perf_counter()
        self.child.stdin.write(lines)
        while left > 0:
            left -= len(self.read())
        return time.perf_counter() - start

    def passage(self, times):
        """What so many lines take that are no commands."""
        if times not in self.passages:
            self.passages[times] = self.wait(NO_COMMAND, len(self.reply(NO_COMMAND)), times)
        return self.passages[times]

    def line_time(self, line):
        """What a line takes, without its way there and back: as often at a time as a span has room for."""
        size = len(self.reply(line))
        times = min(MOST_AT_A_TIME, max(1, int(SPAN / self.wait(line, size, 1))))
        return max(self.wait(line, size, times) - self.passage(times), 0) / times

    def end(self):
        self.child.stdin.close()
        if self.child.wait():
            sys.exit(f"{self.command} ended with {self.child.returncode}")
