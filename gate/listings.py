#!/usr/bin/env python3
"""Has the program read and run the listings of gate/rows/listings.md, and compares what it says.

listings.py PROGRAM: by `exec`, which lines are refused, which code can't be met, and what the worked codes come to by several workers and
two maps.
listings.py --lay FOLDER: writes a file for each listing and for what is expected of it, for the program of gate/calls, and says how many
rows there are. N.bsp is a listing; N.in the bound and the input of a run; N.out what that comes to, which is left out where it has no
outcome; N.left the listing without its empty sends; worked.bsp is the worked listing, and worked.trace its exchanges.
"""
import re
import subprocess
import sys
import tempfile
from pathlib import Path

PAGE = Path(__file__).resolve().parent / "rows" / "listings.md"
BLOCK = re.compile(r"^```(?P<kind>\w+) (?P<name>\w+)\n(?P<text>.*?)^```$", re.M | re.S)
WANTED = {("lines", "wrong"), ("lines", "limits"), ("codes", "verified"), ("codes", "refused"), ("runs", "outcomes"), ("codes", "nowhere")}
WANTED |= {("text", "trace"), ("fused", "pairs")}
WORKERS = (1, 2, 4, 32)
MAPS = ((), ("--map", "affine:5,3"))


def unescaped(row):
    return row.encode().decode("unicode_escape").encode("latin-1")


def page():
    """The rows of each block, and the listings by name."""
    blocks = {(it["kind"], it["name"]): it["text"] for it in BLOCK.finditer(PAGE.read_text())}
    listings = {name: blocks.pop((kind, name)).encode() for kind, name in [*blocks] if kind == "listing"}
    if set(blocks) != WANTED or not all(blocks.values()) or not listings:
        sys.exit(f"listings.md: these blocks are wanted, each with rows: {sorted(WANTED)}")
    return {name: text.splitlines() for (_, name), text in blocks.items()}, listings


def runs(rows, listings):
    """The listing of each row of runs, its bound, its input, and what it comes to."""
    for row in rows["outcomes"]:
        words, _, told = row.partition(": ")
        name, bound, *values = words.split()
        yield listings[name], bound, values, unescaped(told)


# ---- by `exec`


def called(program, text, words=(), given=""):
    """What `exec` says of a listing: its exit status, and both streams."""
    with tempfile.TemporaryDirectory() as folder:
        listing, values = Path(folder, "listing"), Path(folder, "input")
        listing.write_bytes(text)
        values.write_text(given)
        call = [program, "exec", listing, "--input", values, *words]
        done = subprocess.run(call, capture_output=True, timeout=60)
    return done.returncode, done.stdout, done.stderr


def refused(told):
    return 2, b"", b"refused %s\n" % told.encode()


def refusals(rows, worked):
    """Each listing that is refused, with what is said."""
    for row in rows["wrong"]:
        front, mark, rest = unescaped(row).partition(b"^")
        assert mark, f"no mark: {row}"
        yield front + rest, refused(f"E15 BadListing at {len(front)}")
    for row in rows["limits"]:
        yield unescaped(row), refused("E14 NotVerified at 0 end")
    for row in rows["refused"]:
        place, reason, text = row.split(" ", 2)
        yield unescaped(text), refused(f"E14 NotVerified at {place} {reason}")
    for end in range(len(worked)):
        yield worked[:end], refused(f"E15 BadListing at {worked.rfind(b'%c' % 10, 0, end) + 1}")


def status(told):
    """The exit status of a run that says so."""
    last = told.splitlines()[-1]
    return 3 if last == b"goes on" else 1 if last.startswith(b"fault ") else 0


def compared(program):
    """Each call, and whether the program says what the page does."""
    rows, listings = page()
    for text, wanted in refusals(rows, listings["broadcast"]):
        yield text, called(program, text) == wanted
    for row in rows["verified"]:
        found, _, errors = called(program, unescaped(row), ("--bound", "9"))
        yield row, found in (0, 1, 3) and not errors
    for text, bound, values, told in runs(rows, listings):
        for words in [("--workers", str(p), *map_words) for p in WORKERS for map_words in MAPS]:
            found = called(program, text, ("--bound", bound, *words), " ".join(values))
            yield (text, words), found == (status(told), told, b"")


# ---- for calls that no command makes


def laid(rows, listings):
    """The files of each row, by their ending."""
    for text, bound, values, told in runs(rows, listings):
        yield {"bsp": text, "in": " ".join([bound, *values]).encode(), "out": told}
    for row in rows["nowhere"]:
        yield {"bsp": unescaped(row), "in": b"9"}
    for row in rows["pairs"]:
        text, _, left = row.partition("=> ")
        yield {"bsp": unescaped(text), "left": unescaped(left)}
    for text in [listings["words"], *map(unescaped, rows["limits"])]:
        yield {"bsp": text}


def lay(folder):
    rows, listings = page()
    count = 0
    for count, files in enumerate(laid(rows, listings), 1):
        for ending, text in files.items():
            Path(folder, f"{count}.{ending}").write_bytes(text)
    Path(folder, "worked.bsp").write_bytes(listings["broadcast"])
    Path(folder, "worked.trace").write_text("".join(f"{it}\n" for it in rows["trace"]))
    print(count)


def main():
    if sys.argv[1] == "--lay":
        return lay(sys.argv[2])
    found = [*compared(Path(sys.argv[1]).resolve())]
    for row, right in found:
        if not right:
            print(f"told otherwise: {row}")
    right = sum(bool(it) for _, it in found)
    print(f"listings: {right} of {len(found)} calls say what was worked out by hand")
    return sys.exit(right != len(found))


if __name__ == "__main__":
    main()
