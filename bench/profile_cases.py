"""Databases that sqlite3 makes, what tools/from-firefox and tools/from-chromium print of them, and what they refuse."""
import os
import re
import sqlite3
import subprocess
import sys
import threading
import time

from program import HOME

DAY = "2024-10-04"
FIREFOX = """
CREATE TABLE moz_places (id INTEGER PRIMARY KEY, url LONGVARCHAR, title LONGVARCHAR);
CREATE TABLE moz_historyvisits (id INTEGER PRIMARY KEY, from_visit INTEGER, place_id INTEGER, visit_date INTEGER,
    visit_type INTEGER);
"""
CHROMIUM = """
CREATE TABLE urls (id INTEGER PRIMARY KEY, url LONGVARCHAR, title LONGVARCHAR);
CREATE TABLE visits (id INTEGER PRIMARY KEY, url INTEGER, visit_time INTEGER, from_visit INTEGER, transition INTEGER);
"""
NOTHING = "by type 0, by date 0, by scheme 0, by address 0; titles left out: 0"

# Types, dates, sources, and pages that are missing.
VISITS = FIREFOX + """
INSERT INTO moz_places VALUES (1, 'https://a.example/', NULL), (2, 'https://b.example/', ''),
    (3, 'https://c.example/', 'c');
INSERT INTO moz_historyvisits VALUES (3, 0, 1, 0, 1), (5, 3, 2, 253402300799999999, 5), (6, 99, 2, 1, 6),
    (7, 8, 2, 2, 6),
    (8, 8, 2, 3, 9), (9, 10, 2, 4, 4), (10, 0, 1, -1, 1), (11, 0, 1, 253402300800000000, 1), (12, 0, 1, NULL, 1),
    (13, 0, 1, 'x', 1), (14, 0, 1, 1.5, 1), (15, 0, 1, 0, 0), (16, 0, 1, 0, 10), (17, 0, 1, 0, NULL),
    (18, 0, 1, 0, 'x'),
    (19, 0, 4, 0, 1), (20, 0, NULL, 0, 1), (21, 11, 1, 5, 8), (22, 21, 1, 6, 7), (23, 0, 3, NULL, 1),
    (24, 0, 9, -1, 77);
"""
VISITS_SAID = ["visit https://a.example/ 1 0", "visit https://b.example/ 5 253402300799999999 1",
               "visit https://b.example/ 6 1", "visit https://b.example/ 6 2", "visit https://b.example/ 9 3",
               "visit https://b.example/ 4 4", "visit https://a.example/ 8 5", "visit https://a.example/ 7 6 7",
               "# 8 visits, 2 pages; visits left out: by type 5, by date 6, by scheme 0, by address 2; "
               "titles left out: 0"]

# Texts and addresses. The store strips an address, so a scheme may stand in another form.
TEXTS = FIREFOX + """
INSERT INTO moz_places VALUES
    (1, 'https://a.example/' || char(9), '\\t' || char(9) || char(10) || char(13) || char(1, 27)),
    (2, ' ABOUT:blank', 'b'), (3, 'java' || char(10) || 'script:1', 'c'), (4, 'nowhere', 'd'),
    (5, CAST(x'68747470733a2f2f6500' AS TEXT), 'e'), (6, NULL, 'f'), (7, CAST(x'68747470733a2f2f67ff' AS TEXT), 'g'),
    (8, 'https://h.example/\\p', CAST(x'41420043' AS TEXT)), (9, 'https://i.example/', CAST(x'41ff' AS TEXT)),
    (10, 'place:sort=8', CAST(x'0041' AS TEXT)), (11, 'HTTPS://A.Example:443', 'k'),
    (12, 'https://l.example/', 'not visited'),
    (13, 'https://m.example/' || hex(zeroblob(200000)), 'm'), (14, 'https://n.example/', hex(zeroblob(2049))),
    (15, CAST(x'68747470733a2f2f6f2e6578616d706c652f' AS BLOB), x'c3a9'), (16, 'https://p.example/', 'not taken'),
    (17, 'blob:https://a.example/1', 'q'), (18, 'view-source:https://a.example/', 'r');
INSERT INTO moz_historyvisits SELECT id, 0, id, id, 1 FROM moz_places WHERE id NOT IN (12, 16);
INSERT INTO moz_historyvisits VALUES (16, 0, 16, NULL, 1);
"""
TEXTS_SAID = ["visit https://a.example/\\t 1 1", "visit https://h.example/\\\\p 1 8", "visit https://i.example/ 1 9",
              "visit place:sort=8 1 10", "visit HTTPS://A.Example:443 1 11", "visit https://n.example/ 1 14",
              "visit https://o.example/ 1 15", "title https://a.example/\\t \\\\t\\t\\n\\r\x01\x1b",
              "title https://h.example/\\\\p AB",
              "title HTTPS://A.Example:443 k", "title https://n.example/ " + 4096 * "0", "title https://o.example/ é",
              "# 7 visits, 7 pages; visits left out: by type 0, by date 1, by scheme 4, by address 5; "
              "titles left out: 1"]

# Each core type; redirects of the server and of the client, written with a sign and without one.
TYPES = CHROMIUM + """
INSERT INTO urls VALUES (1, 'https://a.example/', 'a'), (2, 'chrome://newtab/', 'b');
WITH RECURSIVE n(i) AS (SELECT 0 UNION ALL SELECT i + 1 FROM n WHERE i < 11)
INSERT INTO visits SELECT i + 1, 1, 11644473600000000 + i, 0, 0x30000000 + i FROM n;
INSERT INTO visits VALUES (20, 1, 11644473600000020, 1, 0xA0000001), (21, 1, 11644473600000021, 20, -1610612735),
    (22, 1, 11644473600000022, 20, 0x60000000), (23, 1, 11644473600000023, 0, 0xA0000001),
    (24, 2, 11644473600000024, 0, 0x30000001), (25, 1, 11644473600000025, 24, 0xA0000001),
    (26, 1, 11644473600000026, 27, 0xA0000001), (27, 1, 11644473600000027, 0, 0xA000000B),
    (28, 1, 11644473600000028, 27, 0xA0000008),
    (29, 1, 11644473600000029, 1, 0x30000000), (30, 1, 11644473599999999, 0, 0), (31, 1, 265046774399999999, 0, 0),
    (32, 1, 265046774400000000, 0, 0), (33, 1, NULL, 0, 0), (34, 1, 0, 0, 0), (35, 1, 11644473600000035, 0, NULL),
    (36, 1, 11644473600000036, 37, 0x40000005), (37, 1, 11644473600000037, NULL, 0xFF000002);
"""
TYPES_SAID = [f"visit https://a.example/ {kind} {core}"
              for core, kind in enumerate((1, 2, 3, 4, 8, 1, 1, 1, 9, 1, 2))] + [
    "visit https://a.example/ 6 20 1", "visit https://a.example/ 6 21 12", "visit https://a.example/ 6 22 12",
    "visit https://a.example/ 2 23", "visit https://a.example/ 2 25", "visit https://a.example/ 2 26",
    "visit https://a.example/ 9 28", "visit https://a.example/ 1 29 1", "visit https://a.example/ 1 253402300799999999",
    "visit https://a.example/ 6 36", "visit https://a.example/ 3 37", "title https://a.example/ a",
    "# 22 visits, 1 pages; visits left out: by type 3, by date 4, by scheme 1, by address 0; "
    "titles left out: 0"]

ONE = FIREFOX + """
INSERT INTO moz_places VALUES (1, 'https://a.example/', 'a');
INSERT INTO moz_historyvisits VALUES (1, 0, 1, 7, 1);
"""
ONE_SAID = ["visit https://a.example/ 1 7", "title https://a.example/ a",
            f"# 1 visits, 1 pages; visits left out: {NOTHING}"]


class Cases:
    """Runs the tools with their folders in `room`, which they leave empty."""

    def __init__(self, places, work):
        self.places, self.work, self.room, self.held, self.failed = places, work / "cases", work / "room", 0, 0
        self.work.mkdir()
        self.room.mkdir()

    def made(self, name, statements):
        path = self.work / name
        subprocess.run(["sqlite3", "-batch", "-bail", "-init", "/dev/null", path], input=statements.encode(),
                       stdout=subprocess.DEVNULL, check=True)
        return path

    def run(self, tool, *words, **options):
        told = {"PLACES": self.places, "TMPDIR": str(self.room), **options.pop("told", {})}
        options = {"stdout": subprocess.PIPE, **options}
        done = subprocess.run([HOME / "tools" / tool, *words], env={**os.environ, **told}, stderr=subprocess.PIPE,
                              **options)
        self.is_so(f"{tool} {words}: its folder is removed", list(self.room.iterdir()), [])
        return done

    def is_so(self, name, seen, wanted):
        if seen != wanted:
            self.failed += 1
            print(f"  {name}:\n    seen   {seen!r}\n    wanted {wanted!r}")
        self.held += seen == wanted

    def says(self, name, tool, database, lines, **options):
        """A tool prints these lines, their TABs written as blanks, behind the day and the head; the store takes all."""
        done = self.run(tool, database, DAY, **options)
        self.is_so(f"{name}: what is told", (done.returncode, done.stderr), (0, b""))
        said = done.stdout.decode().split("\n")
        self.is_so(f"{name}: the day", said[0], f"day\t{DAY}")
        self.is_so(f"{name}: the end", said[-1], "")
        behind = [line for line in said[1:-2] if not line.startswith("# ") or "left out" in line] + said[-2:-1]
        self.is_so(name, behind, [line.replace(" ", "\t") if line[0] != "#" else line for line in lines])
        replies = subprocess.run([self.places, "try"], input=done.stdout, stdout=subprocess.PIPE, check=True).stdout
        numbers = [line.split(b"\t")[1] for line in replies.split(b"\n") if line.startswith(b"visit")]
        self.is_so(f"{name}: refusals", replies.count(b"refused"), 0)
        self.is_so(f"{name}: ids", numbers, [b"%d" % number for number in range(1, len(numbers) + 1)])

    def fails(self, name, wanted, tool, *words, said=b"", **options):
        """A tool ends with 1 and a message that has these words, and prints nothing, or what is said."""
        done = self.run(tool, *words, **options)
        self.is_so(f"{name}: the status", done.returncode, 1)
        self.is_so(f"{name}: what is printed", done.stdout or b"", said)
        lines = done.stderr.decode(errors="replace").split("\n")
        self.is_so(f"{name}: {done.stderr!r} has {wanted!r}", wanted in lines[-2] and lines[-2].startswith(tool), True)


def check_scripts(cases):
    cases.says("visits", "from-firefox", cases.made("visits", VISITS), VISITS_SAID)
    cases.says("texts", "from-firefox", cases.made("texts", TEXTS), TEXTS_SAID)
    cases.says("types", "from-chromium", cases.made("types", TYPES), TYPES_SAID)
    wide = cases.made("-a name\twith 'all'\n", "PRAGMA encoding = 'UTF-16';" + ONE)
    cases.says("texts as UTF-16", "from-firefox", wide, ONE_SAID)
    nothing = [f"# 0 visits, 0 pages; visits left out: {NOTHING}"]
    cases.says("nothing", "from-firefox", cases.made("nothing", FIREFOX), nothing)
    today = cases.run("from-firefox", cases.made("today", ONE))
    cases.is_so("today", today.stdout.split(b"\n")[0], time.strftime("day\t%Y-%m-%d", time.gmtime()).encode())
    link = cases.work / "link"
    link.symlink_to(cases.work / "today")
    cases.says("a link", "from-firefox", link, ONE_SAID)


def check_schemes(cases):
    """The schemes are those of the store."""
    page = (HOME / "docs/COMMANDS.md").read_text()
    schemes = re.findall("`([^`]*)`", re.search(r"schemes that are not recorded:([^.]*)\.", page)[1])
    rows = "".join(f"INSERT INTO moz_places VALUES ({n}, '{scheme}:x', 'x');"
                   f"INSERT INTO moz_historyvisits VALUES ({n}, 0, {n}, 0, 1);" for n, scheme in enumerate(schemes, 10))
    said = ONE_SAID[:2] + [ONE_SAID[2].replace("scheme 0", f"scheme {len(schemes)}")]
    cases.says("schemes", "from-firefox", cases.made("schemes", ONE + rows), said)


def check_newer_shell(cases):
    """A shell that prints control characters in another form, but where `-escape off` stands."""
    shell = cases.work / "newer"
    shell.mkdir()
    (shell / "sqlite3").write_text("""#!/bin/sh
PATH=${PATH#*:}
case " $* " in
    *' -escape off '*) raw=$(printf '%s\\n' "$@" | grep -n -x -e -escape | cut -d : -f 1) ;;
    *) sqlite3 "$@" | LC_ALL=C tr '\\001\\033' '^^'; exit ;;
esac
[ "$raw" = 5 ] || exit 1
shift 6
exec sqlite3 -batch -bail -init /dev/null "$@"
""")
    (shell / "sqlite3").chmod(0o755)
    path = {"PATH": f"{shell}:{os.environ['PATH']}"}
    cases.says("a newer shell", "from-firefox", cases.work / "texts", TEXTS_SAID, told=path)


def check_log(cases):
    """Of a browser that runs, or was killed: what was committed counts, and no more."""
    path = cases.made("log", "PRAGMA journal_mode = wal;" + FIREFOX)
    with_log = sqlite3.connect(path, isolation_level=None)
    with_log.executescript(ONE.replace(FIREFOX, ""))
    with_log.execute("BEGIN")
    with_log.execute("UPDATE moz_places SET title = 'b'")
    cases.says("a log", "from-firefox", path, ONE_SAID)
    filler = "CREATE TABLE filler AS SELECT zeroblob(900) FROM json_each('[%s1]');" % ("1," * 999)
    path = cases.made("journal", ONE + filler)
    changing = sqlite3.connect(path, isolation_level=None)
    changing.executescript("PRAGMA cache_size = 1; PRAGMA cache_spill = 1; BEGIN; UPDATE moz_places SET title = 'b';"
                           "UPDATE filler SET rowid = rowid + 9999;")
    killed = cases.work / "killed"
    for end in ("", "-journal"):
        (cases.work / f"killed{end}").write_bytes((cases.work / f"journal{end}").read_bytes())
    cases.is_so("a journal that is hot", (cases.work / "killed-journal").stat().st_size > 100_000, True)
    cases.says("a journal", "from-firefox", killed, ONE_SAID)


def check_torn(cases):
    path = cases.made("whole", ONE + "WITH RECURSIVE n(i) AS (SELECT 2 UNION ALL SELECT i + 1 FROM n WHERE i < 9999)"
                      "INSERT INTO moz_places SELECT i, 'https://a.example/' || i, 'a' FROM n;")
    data = path.read_bytes()
    torn = cases.work / "torn"
    for name, some in (("cut", data[: len(data) // 2]), ("of a cut page", data[:-1000]),
                       ("with a page of noughts", data[:8192] + bytes(4096) + data[12288:])):
        torn.write_bytes(some)
        cases.fails(f"a database {name}", "is damaged, or its copy is torn", "from-firefox", torn)
    ends = threading.Event()

    def change():
        while not ends.wait(0.01):
            path.write_bytes(data)

    writer = threading.Thread(target=change)
    writer.start()
    cases.fails("a database that changes", "its copy is torn", "from-firefox", path)
    ends.set()
    writer.join()


def check_faults(cases):
    path = cases.made("good", ONE)
    text = cases.work / "text"
    text.write_text("hello " * 1000)
    empty = cases.work / "empty"
    empty.write_text("")
    for name, wanted, words in (
            ("no word", "DATABASE", []), ("three words", "DATABASE", [path, DAY, "x"]),
            ("no file", "there is no file", [cases.work / "no\nfile"]), ("a folder", "no regular file", [cases.work]),
            ("a text", "no database of SQLite", [text]),
            ("an empty file", "no column id in a table moz_places", [empty]),
            ("no day", "'x' is no day", [path, "x"]), ("no date", "'2025-02-30' is no day", [path, "2025-02-30"]),
            ("two lines", "is no day", [path, "1\n2"]), ("a day too far", "'2932897' is no day", [path, "2932897"]),
            ("an empty day", "'' is no day", [path, ""])):
        cases.fails(name, wanted, "from-firefox", *words)
    wanted = "is no history of Chromium: it has no column id in a table urls"
    cases.fails("another browser", wanted, "from-chromium", path)
    view = cases.made("view", ONE + "ALTER TABLE moz_places RENAME TO p; CREATE VIEW moz_places AS SELECT * FROM p;")
    cases.fails("a view", "no column id in a table moz_places", "from-firefox", view)
    less = cases.made("less", ONE + "ALTER TABLE moz_historyvisits DROP COLUMN from_visit;")
    cases.fails("a column less", "no column from_visit in a table moz_historyvisits", "from-firefox", less)
    for name, wanted in (("/bin/false", "ended with status 1"), ("/no/program", "ended with status 127"),
                         ("cat", "not answer")):
        program = cases.work / "program"
        program.write_text(f"#!/bin/sh\nread line\n[ \"${{line#day}}\" = \"$line\" ] || exec echo day\nexec {name}\n")
        program.chmod(0o755)
        cases.fails(f"the program {name}", wanted, "from-firefox", path, told={"PLACES": str(program)})
    path.chmod(0)
    cases.work.parent.chmod(0o711)
    cases.room.chmod(0o777)
    nobody = {"user": 65534, "group": 65534, "extra_groups": []} if os.getuid() == 0 else {}
    cases.fails("a file that may not be read", "no permission to read", "from-firefox", path, **nobody)


def check_later_faults(cases):
    """What goes wrong once lines are printed: the last line is missing."""
    path = cases.made("later", ONE)
    with open("/dev/full", "wb") as full:
        cases.fails("a full device", "not printed to its end", "from-firefox", path, stdout=full)
    reader, writer = os.pipe()
    os.close(reader)
    cases.fails("nobody reads", "not printed to its end", "from-firefox", path, stdout=writer)
    os.close(writer)
    shell = cases.work / "bin"
    shell.mkdir()
    (shell / "sqlite3").write_text("""#!/bin/sh
PATH=${PATH#*:}
[ ! -s last ] || { sqlite3 "$@" | head -n 1; exit 1; }
exec sqlite3 "$@"
""")
    (shell / "sqlite3").chmod(0o755)
    said = f"day\t{DAY}\n# The history of a Firefox profile, by its visits and titles.\n".encode()
    done = cases.run("from-firefox", path, DAY, told={"PATH": f"{shell}:{os.environ['PATH']}"})
    cases.is_so("a shell that fails", (done.returncode, done.stdout.startswith(said), b"left out" in done.stdout,
                                       b"\nvisit\t" in done.stdout), (1, True, False, True))


def check(places, work):
    """Ends where a case does not hold."""
    cases = Cases(places, work)
    for some in (check_scripts, check_schemes, check_newer_shell, check_log, check_torn, check_faults, check_later_faults):
        some(cases)
    print(f"  {cases.held} of {cases.held + cases.failed} hold")
    if cases.failed:
        sys.exit(1)
