"""Which crate uses which, by crates.txt."""
import re
from pathlib import Path

TOP = Path(__file__).resolve().parent.parent
CRATES = TOP / "crates"
PARTS = ("src", "specs", "proofs")


def listed():
    """The lines of crates.txt, each by its crate."""
    lines = [it.split("#")[0].strip() for it in (TOP / "crates.txt").read_text().splitlines()]
    return {re.split(r"[\s:]", it)[0]: it for it in lines if it}


def with_those_below(names):
    """These crates and all below them, each with those that it uses and behind them."""
    words = {crate: line.partition(":")[2].split() for crate, line in listed().items()}
    found = {}

    def add(crate):
        uses = [it for it in words[crate] if it in words]
        for it in uses:
            if it not in found:
                add(it)
        found[crate] = uses

    for it in names:
        add(it)
    return found


def chain(uses, seconds):
    """The dearest chain of crates, each of which uses the one before it."""
    ending = {}
    for crate in [it for it in uses if it in seconds]:
        lower = [ending[it] for it in uses[crate] if it in ending]
        ending[crate] = [*max(lower, key=lambda it: sum(map(seconds.get, it)), default=[]), crate]
    return max(ending.values(), key=lambda it: sum(map(seconds.get, it)))
