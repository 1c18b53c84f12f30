#!/usr/bin/env python3
"""Has a headless Firefox back up its bookmarks, restores that by `places restore`, and has another Firefox restore the backup of it.

    bench/returned.py [PROGRAM]

The first Firefox has the tree of `restored.py`. Its own backup goes into a store that had other bookmarks, and what `places
backup` says of the store into a new profile, whose tree is compared with the first one's. It fails, and lists differences with
their numbers, as `restored.py` does; there are fewer dates that Firefox cuts, since it had cut them before. Firefox is installed
by apt-get where it is missing.
"""
import pathlib
import sys
import tempfile

import browsers
from program import new_store, program
from restored import RESTORE, TREE, Comparison, back_up, roots, run

EXPORT = """ChromeUtils.importESModule("resource://gre/modules/BookmarkJSONUtils.sys.mjs").BookmarkJSONUtils
    .exportToFile(args[0])"""
SECOND = "bookmark\t3\tend\thttps://gone.example/\tgone\t5\ntag\thttps://gone.example/\tgone\t5\n"


def firefox_on(folder, work):
    """What this gives of a Firefox with a new profile."""
    firefox = browsers.Firefox(folder / "profile")
    try:
        return work(firefox)
    finally:
        firefox.quit()


def backed_up(backup, own):
    """Firefox's version and its tree behind the restoring of a backup, and its own backup in a file."""
    def work(firefox):
        firefox.run(RESTORE, str(backup))
        firefox.run(EXPORT, str(own))
        return firefox.run("Services.appinfo.version"), firefox.run(TREE)
    return work


def through(places, folder, own):
    """The backup of a store that Firefox's own was restored into, in a file."""
    store, again = folder / "returned", folder / "again.json"
    new_store(places, store)
    run([places, "run", store], SECOND)
    said = run([places, "restore", store], own.read_text())
    again.write_bytes(run([places, "backup", store], ""))
    return again, said.decode().strip()


def titled(node):
    """The node, with an empty title where Firefox tells none."""
    return {"title": "", **node, "children": [titled(child) for child in node.get("children", [])]}


def main():
    places = program()
    browsers.PACKAGES.pop("chromium", None)
    browsers.install()
    with tempfile.TemporaryDirectory() as name:
        folder = pathlib.Path(name)
        for part in ("first", "second"):
            (folder / part).mkdir()
        own = folder / "own.json"
        version, first = firefox_on(folder / "first", backed_up(back_up(places, folder), own))
        again, said = through(places, folder, own)
        second = firefox_on(folder / "second", lambda firefox: (firefox.run(RESTORE, str(again)), firefox.run(TREE))[1])
    comparison, theirs = Comparison(), roots(second)
    for guid, root in roots(first).items():
        comparison.compare_lists(guid, titled(root)["children"], theirs[guid].get("children", []))
    print(f"Firefox {version}: {said}; {comparison.nodes} nodes compared, {len(comparison.wrong)} wrong")
    for kind, pairs in sorted(comparison.other.items()):
        print(f"  {kind}: {len(pairs)}, as {pairs[0][0]!r} and {pairs[0][1]!r}")
    for difference in comparison.wrong[:20]:
        print(f"  wrong: {difference}")
    sys.exit(bool(comparison.wrong))


if __name__ == "__main__":
    main()
