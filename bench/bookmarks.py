#!/usr/bin/env python3
"""Times the reading of a bookmark file beside html.parser of Python on the same file.

    bench/bookmarks.py [PROGRAM]

PROGRAM is that of `crates/nbread_main`, by default the one that `rt run` in that folder left, or the gate where it proved
it. The file has 15 MB: bookmarks with dates, tags and icons in folders, which end in turn. Both count folders, bookmarks and separators; the counts are compared.
Of three runs the least time is told, with the peak of memory of that program.
"""
import html.parser
import os
import pathlib
import subprocess
import sys
import tempfile
import time

HOME = pathlib.Path(__file__).resolve().parent.parent
SIZE = 15_000_000


class Counter(html.parser.HTMLParser):
    """The tags that make nodes, and the text of titles as a reader would gather it."""

    def __init__(self):
        super().__init__(convert_charrefs=True)
        self.nodes, self.titles, self.title = 0, [], None

    def handle_starttag(self, tag, attrs):
        self.end_title()
        if tag in ("a", "h3", "hr"):
            self.nodes += 1
        if tag in ("a", "h3"):
            self.title = (dict(attrs), [])

    def handle_endtag(self, tag):
        if tag in ("a", "h3", "dl"):
            self.end_title()

    def handle_data(self, data):
        if self.title:
            self.title[1].append(data)

    def end_title(self):
        if self.title:
            self.titles.append((self.title[0], "".join(self.title[1]).strip()))
            self.title = None


def folder(number):
    icon = "data:image/png;base64," + "iVBORw0KGgoAAAANSUhEUg" * 6
    rows = "".join(
        f'        <DT><A HREF="https://h{number}.example/p{n}?a=1&amp;b=2" ADD_DATE="{1600000000 + n}" '
        f'LAST_MODIFIED="{1700000000 + n}" ICON="{icon}" TAGS="tag{n % 7},news">Page &amp; {n} of {number}</A>\n'
        for n in range(50))
    return (f'    <DT><H3 ADD_DATE="1600000000" LAST_MODIFIED="1700000000">Folder {number}</H3>\n    <DL><p>\n{rows}'
            "        <HR>\n    </DL><p>\n")


def bookmarks():
    parts = ["<!DOCTYPE NETSCAPE-Bookmark-file-1>\n<TITLE>Bookmarks</TITLE>\n<H1>Bookmarks</H1>\n<DL><p>\n"]
    size, number = 0, 0
    while size < SIZE:
        parts.append(folder(number))
        size, number = size + len(parts[-1]), number + 1
    return "".join(parts + ["</DL><p>\n"])


def run(words, path):
    """What the program says of the file, its time in seconds and its peak of memory in MiB."""
    with open(path, "rb") as file:
        start = time.perf_counter()
        child = subprocess.Popen(words, stdin=file, stdout=subprocess.PIPE)
        said = child.stdout.read().decode()
        _, status, usage = os.wait4(child.pid, 0)
    if status != 0:
        sys.exit(f"{words[0]} failed")
    return said, time.perf_counter() - start, usage.ru_maxrss / 1024


def timed(words, path):
    runs = [run(words, path) for _ in range(3)]
    return min(took for _, took, _ in runs), runs[0][0], max(memory for _, _, memory in runs)


def count():
    counter = Counter()
    counter.feed(sys.stdin.buffer.read().decode())
    counter.close()
    counter.end_title()
    print(counter.nodes)


def main():
    program = sys.argv[1] if len(sys.argv) > 1 else str(HOME / "crates/nbread_main/out/nbread_main")
    with tempfile.TemporaryDirectory() as room:
        path = pathlib.Path(room) / "bookmarks.html"
        path.write_text(bookmarks())
        ours, said, our_peak = timed([program], path)
        theirs, counted, their_peak = timed([sys.executable, __file__, "--count"], path)
        nodes = sum(int(line) for line in said.splitlines()[:4])
        if said.splitlines()[4] != "skipped 0" or nodes != int(counted):
            sys.exit(f"the counts differ: {said!r} and {counted!r}")
        print(f"{path.stat().st_size} bytes, {nodes} nodes")
        print(f"nbread_main  {ours:6.2f} s  {our_peak:6.0f} MiB")
        print(f"html.parser  {theirs:6.2f} s  {their_peak:6.0f} MiB")


if __name__ == "__main__":
    if sys.argv[1:] == ["--count"]:
        count()
    else:
        main()
