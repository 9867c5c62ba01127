#!/usr/bin/env python3
"""Which parts of proofs took longest.

slowest.py [CRATE..]  the forty longest, in seconds, of these crates or of all that were checked here

A check keeps a file for each module that it made in out/incremental of the crate, so the time since the file before it is what the module
took, where the check had one job (`rt check --jobs 1`). Of a function `Lts` is what the borrow checker made of it, which grows with what is
let go at each way out of it, and `Proof` are the goals that tactics close.
"""
import sys
from pathlib import Path

CRATES = Path(__file__).resolve().parent.parent / "crates"
MOST = 40
# A gap that is longer lies between two checks.
LONGEST = 300


def taken(crate):
    """Each module of a crate, with how long after the one before it came."""
    files = (it for it in (CRATES / crate / "out/incremental").rglob("*") if it.is_file())
    times = sorted((it.stat().st_mtime, it.name.removesuffix(".oantt")) for it in files)
    for (before, _), (after, name) in zip(times, times[1:]):
        if after - before < LONGEST:
            yield after - before, crate, name.removeprefix(f"Rattle-{crate}-proofs.")


def main():
    names = sys.argv[1:] or sorted(it.name for it in CRATES.iterdir())
    found = sorted((row for name in names for row in taken(name)), reverse=True)
    for seconds, crate, name in found[:MOST]:
        print(f"{seconds:6.1f}  {crate}  {name}")
    print(f"{sum(row[0] for row in found):6.0f}  in all")


main()
