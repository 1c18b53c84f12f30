#!/usr/bin/env python3
"""Has a headless Firefox restore a backup of `places backup`, and compares its bookmarks with what was backed up.

    bench/restored.py [PROGRAM]

The store has each kind of node in each root, folders in each other, titles and tags of odd characters, addresses of odd
schemes, pages with several bookmarks, and dates of every kind. Firefox reads the file as its library does ("Restore"), and
then tells its own tree. It fails where the trees have other shapes, or where a kind, an address, a set of tags, a title of a
bookmark or a folder, or a date differs of a node whose dates are above 0 and in whole milliseconds, the later one not before
an addition of the node or of one below it. Tags of blanks alone and titles with U+FFFF may differ. Each other difference is
listed with its number and an example, with Firefox's version. Firefox is installed by apt-get where it is missing.
"""
import collections
import json
import pathlib
import subprocess
import sys
import tempfile

import browsers
from program import new_store, program

MILLISECOND = 1_000
DEPTH = 40
DATES = [0, 1, 999, 1_000, 1_001, 1_500_000_000_000_000, 1_500_000_000_123_000, 1_500_000_000_123_456,
         4_102_444_800_000_000, 253_402_300_799_999_000]
TITLES = ["", " ", "  both ends  ", "plain", "<b>&\"'\\\\/", "tab\\tand\\nline", "\x01\x1f\x7f", "\u2028\u2029\ufeff\u00a0", "é ß İ",
          "\U0001f600 \U0001f469\u200d\U0001f680", "\uffff\U0010ffff", "x" * 4_096]
TAGS = ["Red", "blue", "a & b", "\"q\"", "<t>", "é", "ß", "\u2028", "\U0001f600", "x" * 100]
ADDRESSES = ["https://a.example/", "http://a.example:8080/p?q=1&r=%20#f", "about:blank", "javascript:alert(\"a<b>\")",
             "place:type=3&sort=4", "data:text/html,<p>", "file:///tmp/x", "mailto:a@b.example", "ftp://f.example/", "https://xn--bcher-kva.example/"]
ROOTS = {"menu________": 2, "toolbar_____": 3, "unfiled_____": 5, "mobile______": 6}


# ---- the store

def lines():
    """The lines of a script that make the store, each of which is done."""
    yield from (f"folder\t{root}\tend\tdates {root}\t7" for root in ROOTS.values())
    yield from dated(7)
    for title in TITLES:
        yield f"bookmark\t8\tend\thttps://titles.example/\t{title}\t1500000000000000"
        yield f"folder\t8\tend\t{title}\t1500000000000000"
    for address in ADDRESSES:
        yield f"bookmark\t9\tend\t{address}\t{address[:20]}\t1500000000000000"
        yield f"bookmark\t2\tend\t{address}\tagain\t1600000000000000"
    for number, tag in enumerate(TAGS):
        yield f"bookmark\t10\tend\thttps://t{number}.example/\ttagged\t1500000000000000"
        yield from (f"tag\thttps://t{number}.example/\t{other}\t1500000000000000" for other in TAGS[number:])
    yield "separator\t3\tend\t1500000000000000"
    yield "bookmark\t5\tend\thttps://b.example/\tunfiled\t1500000000000000"


def dated(folder):
    """Bookmarks, folders and separators with each pair of dates; ids follow from those of the four folders before them."""
    item = 10
    for added in DATES:
        for modified in DATES:
            for line in (f"bookmark\t{folder}\tend\thttps://d.example/\td\t{added}", f"folder\t{folder}\tend\td\t{added}",
                         f"separator\t{folder}\tend\t{added}"):
                item += 1
                yield line
                yield f"retitle\t{item}\t{'rule' if line.startswith('separator') else 'd'}\t{modified}"


def nested():
    """A bookmark file with folders in each other, and a bookmark in the innermost."""
    return ("<!DOCTYPE NETSCAPE-Bookmark-file-1>" + "<DT><H3 ADD_DATE='5' LAST_MODIFIED='6'>deep<DL>" * DEPTH
            + "<DT><A HREF='https://deep.example/' ADD_DATE='7' LAST_MODIFIED='8'>deep</A>" + "</DL>" * DEPTH)


def run(words, data):
    done = subprocess.run(words, input=data.encode(), capture_output=True)
    if done.returncode or b"refused" in done.stdout:
        said = [line for line in done.stdout.splitlines() if line.startswith(b"refused")]
        sys.exit(f"restored.py: {words[1]}: status {done.returncode}, {done.stderr!r}, {said[:5]}")
    return done.stdout


def back_up(places, folder):
    """The backup of the store, in a file of its own."""
    store, backup = folder / "store", folder / "bookmarks.json"
    new_store(places, store)
    run([places, "run", store], "".join(f"{line}\n" for line in lines()))
    run([places, "import", store], nested())
    backup.write_bytes(run([places, "backup", store], ""))
    return backup


# ---- Firefox

RESTORE = """ChromeUtils.importESModule("resource://gre/modules/BookmarkJSONUtils.sys.mjs").BookmarkJSONUtils
    .importFromFile(args[0], {replace: true, source: PlacesUtils.bookmarks.SOURCES.RESTORE})"""
TREE = "PlacesUtils.promiseBookmarksTree(PlacesUtils.bookmarks.rootGuid)"


def restored(backup, folder):
    """Firefox's version, and its tree behind the restoring."""
    browsers.PACKAGES.pop("chromium", None)
    browsers.install()
    firefox = browsers.Firefox(folder / "profile")
    try:
        firefox.run(RESTORE, str(backup))
        return firefox.run("Services.appinfo.version"), firefox.run(TREE)
    finally:
        firefox.quit()


# ---- the comparison

def tags(node):
    return sorted(filter(None, node.get("tags", "").split(",")))


def latest(node):
    """The latest addition of the node and of all below it."""
    return max([node["dateAdded"], *(latest(child) for child in node.get("children", []))])


def date_kind(node, key):
    """Why this date of a node need not come back, if so."""
    if node[key] == 0:
        return "0"
    if node[key] % MILLISECOND:
        return "no whole milliseconds"
    if 0 in (node["dateAdded"], node["lastModified"]):
        return "beside a 0"
    if key == "lastModified" and node["dateAdded"] % MILLISECOND:
        return "beside an addition in no whole milliseconds"
    if key == "lastModified" and node[key] < node["dateAdded"]:
        return "before its addition"
    if key == "lastModified" and node[key] < latest(node):
        return "before an addition below it"
    return None


class Comparison:
    def __init__(self):
        self.nodes, self.wrong, self.other = 0, [], collections.defaultdict(list)

    def compare(self, path, ours, theirs):
        """A node of ours and one of theirs, with all below them."""
        self.nodes += 1
        for key in ("typeCode", "uri"):
            if ours.get(key) != theirs.get(key):
                self.wrong.append((path, key, ours.get(key), theirs.get(key)))
        self.compare_tags(path, ours, theirs)
        self.compare_titles(path, ours, theirs)
        for key in ("dateAdded", "lastModified"):
            self.compare_dates(path, key, ours, theirs)
        self.compare_lists(path, ours.get("children", []), theirs.get("children", []))

    def compare_lists(self, path, ours, theirs):
        if len(ours) != len(theirs):
            self.wrong.append((path, "children", len(ours), len(theirs)))
        for place, (one, other) in enumerate(zip(ours, theirs)):
            self.compare(f"{path}/{place}", one, other)

    def compare_tags(self, path, ours, theirs):
        one, other = tags(ours), tags(theirs)
        if one == other:
            if ours.get("tags") != theirs.get("tags"):
                self.other["order of tags"].append((ours["tags"], theirs["tags"]))
        elif [tag for tag in one if tag.strip()] == other:
            self.other["tag of a blank"].append((next(tag for tag in one if not tag.strip()), ""))
        else:
            self.wrong.append((path, "tags", one, other))

    def compare_titles(self, path, ours, theirs):
        one, other = ours["title"], theirs.get("title", "")
        if one == other:
            return
        if ours["typeCode"] == 3:
            self.other["title of a separator"].append((one, other))
        elif one.replace("\uffff", "\ufffd") == other:
            self.other["title with U+FFFF"].append((one, other))
        else:
            self.wrong.append((path, "title", one[:80], other[:80]))

    def compare_dates(self, path, key, ours, theirs):
        if ours[key] == theirs.get(key):
            return
        kind = date_kind(ours, key)
        if kind is None:
            self.wrong.append((path, key, ours[key], theirs.get(key)))
        else:
            self.other[f"{key} {kind}"].append((ours[key], theirs.get(key)))


def roots(tree):
    """The four roots of a tree by their GUIDs. Their own titles and dates are Firefox's."""
    return {root["guid"]: root for root in tree["children"] if root.get("guid") in ROOTS}


def main():
    with tempfile.TemporaryDirectory() as name:
        folder = pathlib.Path(name)
        backup = back_up(program(), folder)
        version, theirs = restored(backup, folder)
        ours = json.loads(backup.read_bytes())
    comparison, one, other = Comparison(), roots(ours), roots(theirs)
    for guid in ROOTS:
        comparison.compare_lists(guid, one[guid]["children"], other[guid].get("children", []))
    print(f"Firefox {version}, {comparison.nodes} nodes")
    for name, pairs in sorted(comparison.other.items()):
        print(f"  {name}: {len(pairs)}, as {pairs[0][0]!r} to {pairs[0][1]!r}")
    for path, key, wanted, found in comparison.wrong[:40]:
        print(f"  wrong: {path}: {key}: wanted {wanted!r}, found {found!r}")
    sys.exit(f"restored.py: {len(comparison.wrong)} differences" if comparison.wrong else 0)


if __name__ == "__main__":
    main()
