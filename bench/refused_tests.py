#!/usr/bin/env python3
"""Runs the tests of a crate with each of their allocations refused in turn, as `rt try --test --fail-alloc N` does for one N.

    bench/refused_tests.py [CRATE]

CRATE is by default trials_refused, the whole runs in memory. `rt try` compiles the tests anew for each number, which takes
minutes. So it runs here once, and what it compiled is linked again with `try_rattle_alloc` and `try_rattle_realloc` that
take the number from the environment, and without the checks of addresses. A test passes, or ends with an error of its own,
where the refused allocation was of what the test prepares or looks at; the script fails where a test ends otherwise, as by an
assertion. It needs the kit that `rt` belongs to, and builds nothing else.
"""
import collections
import os
import pathlib
import shutil
import subprocess
import sys
import tempfile
import threading
import time

HOME = pathlib.Path(__file__).resolve().parent.parent
OWN_ERROR = 101

SHIM = """
typedef struct { long done; void *at; } Given;
extern Given rattle_alloc(long, long), rattle_realloc(void *, long, long, long);
extern char *getenv(const char *);
extern long atol(const char *);
extern int dprintf(int, const char *, ...);
static long calls, refused;
__attribute__((constructor)) static void begin(void) {
    const char *at = getenv("REFUSED_AT");
    refused = at ? atol(at) : 0;
}
__attribute__((destructor)) static void end(void) {
    if (!refused) dprintf(2, "allocations %ld\\n", calls);
}
Given try_rattle_alloc(long size, long align) {
    return ++calls == refused ? (Given){0, (void *)4096} : rattle_alloc(size, align);
}
Given try_rattle_realloc(void *old, long kept, long size, long align) {
    return ++calls == refused ? (Given){0, (void *)4096} : rattle_realloc(old, kept, size, align);
}
"""


def keep_largest(folder, kept, ended):
    """Keeps a link to the largest module that is written below the folder."""
    size = 0
    while not ended.is_set():
        for path in folder.glob("*/*/module.bc"):
            try:
                now = path.stat().st_size
                if now > size:
                    kept.unlink(missing_ok=True)
                    os.link(path, kept)
                    size = now
            except OSError:
                continue
        time.sleep(0.01)


def compiled(crate, folder):
    """The tests of the crate as one module, and their names."""
    kept, ended = folder / "tests.bc", threading.Event()
    watcher = threading.Thread(target=keep_largest, args=(folder, kept, ended))
    watcher.start()
    words = ["rt", "try", "--test", "--fail-alloc", str(10**15)]
    done = subprocess.run(words, cwd=HOME / "crates" / crate, env={**os.environ, "TMPDIR": str(folder)}, capture_output=True, text=True)
    ended.set()
    watcher.join()
    lines = (done.stdout + done.stderr).splitlines()
    names = [line.split()[1] for line in lines if line.startswith("test ") and line.endswith(" ok")]
    if done.returncode or not names:
        sys.exit("\n".join(lines[-20:]))
    return kept, names


def linked(module, folder):
    """The program of the tests."""
    kit = pathlib.Path(shutil.which("rt")).resolve().parent.parent
    clang = kit / "toolchain/bin/clang"
    (folder / "shim.c").write_text(SHIM)
    subprocess.run([clang, "-O1", "-c", module, "-o", folder / "tests.o"], check=True)
    subprocess.run(["cc", "-O2", "-fPIC", "-c", folder / "shim.c", "-o", folder / "shim.o"], check=True)
    words = [kit / "bin/rattle-link", "--target", "x86_64-unknown-linux-gnu", "--toolchain", kit / "toolchain", "-o", folder / "tests"]
    words += [folder / "tests.o", folder / "shim.o", kit / "c/libos_c.a", kit / "c/liblibc_c.a"]
    subprocess.run(words, check=True, capture_output=True)
    return folder / "tests"


def run(program, name, refused=0):
    return subprocess.run([program, name], env={"REFUSED_AT": str(refused)}, capture_output=True, text=True)


def each_refused(program, name):
    """How many allocations the test makes, and how it ended without each of them."""
    count = int(run(program, name).stderr.split("allocations ")[1].split()[0])
    ends = collections.Counter()
    for refused in range(1, count + 1):
        done = run(program, name, refused)
        if done.returncode not in (0, OWN_ERROR) or done.returncode and not done.stderr.startswith("error: "):
            sys.exit(f"refused_tests.py: {name}, allocation {refused}: status {done.returncode}, {done.stderr[:500]!r}")
        ends["passed" if done.returncode == 0 else "ended with an error of its own"] += 1
    return count, ends


def main():
    crate = sys.argv[1] if len(sys.argv) > 1 else "trials_refused"
    with tempfile.TemporaryDirectory() as folder:
        module, names = compiled(crate, pathlib.Path(folder))
        program = linked(module, pathlib.Path(folder))
        for name in names:
            count, ends = each_refused(program, name)
            print(f"{name}: {count} allocations: {', '.join(f'{number} {how}' for how, number in sorted(ends.items()))}", flush=True)


if __name__ == "__main__":
    main()
