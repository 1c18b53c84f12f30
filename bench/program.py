"""The proved program: the one that is named, or the repository's own, built first where it is missing or old."""
import pathlib
import subprocess
import sys

HOME = pathlib.Path(__file__).resolve().parent.parent


def program():
    if len(sys.argv) > 1:
        return sys.argv[1]
    subprocess.run([HOME / "places", "try"], stdin=subprocess.DEVNULL, check=True)
    return str(HOME / "out/places")


def new_store(places, store):
    made = subprocess.run([places, "new", store], stdin=subprocess.DEVNULL, capture_output=True, check=True)
    if made.stdout != b"new\n":
        sys.exit("no store was made")
