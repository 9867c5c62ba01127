#!/usr/bin/env python3
"""Wrong bodies, and those that each run of the gate leaves out.

A wrong body is an edit of a crate that the prover has to refuse. Those of crates/NAME/must-fail are tried by each run of the gate. A crate
whose first check is long would pay for it once more there, so those of its wrong bodies that others stand for are in crates/NAME/wrong-bodies,
which this tries.

wrong_bodies.py               can each edit of both folders be applied? What it replaces stands once in its file, and something changes
wrong_bodies.py try [NAME..]  has the prover refuse those of wrong-bodies, of these crates or of all
"""
import re
import shutil
import subprocess
import sys
import tempfile
from pathlib import Path

from uses import CRATES, PARTS, TOP, listed, with_those_below

FOLDERS = ("must-fail", "wrong-bodies")
LINE = re.compile(r"(file: |old: |new:)(.*)")


def pairs(edit):
    """What an edit replaces: each file, its old text and its new one."""
    file = old = None
    for kind, rest in LINE.findall(edit.read_text()):
        if kind == "file: ":
            file = rest.strip()
        elif kind == "old: ":
            old = rest
        else:
            yield file, old, rest.removeprefix(" ")


def why_not(edit):
    """Why an edit can't be applied, or None."""
    crate, texts = edit.parent.parent, {}
    for file, old, new in pairs(edit):
        if not file or not old or not (crate / file).is_file():
            return f"there is no file {file}, or no old text"
        text = texts.setdefault(file, (crate / file).read_text())
        if text.count(old) != 1:
            return f"an old text is in {file} {text.count(old)} times: {old.strip()[:80]}"
        texts[file] = text.replace(old, new)
    changed = any(text != (crate / file).read_text() for file, text in texts.items())
    return None if changed else "it changes nothing"


def edits(folder):
    return sorted(CRATES.glob(f"*/{folder}/*.edit"))


def look():
    every = [it for folder in FOLDERS for it in edits(folder)]
    wrong = [(it, why) for it in every if (why := why_not(it))]
    for it, why in wrong:
        print(f"{it.relative_to(TOP)}: {why}")
    twice = {(it.parent.parent.name, it.name) for it in edits("must-fail")} & {(it.parent.parent.name, it.name) for it in edits("wrong-bodies")}
    for crate, name in sorted(twice):
        print(f"{crate}: {name} stands in both folders")
    print(f"{len(every)} wrong bodies, {len(edits('must-fail'))} of them for each run of the gate")
    return 1 if wrong or twice else 0


def copied(to, uses, tried):
    """The sources of these crates, with the libraries that were built of them, in which the wrong bodies of those to be tried are for `rt`."""
    for crate in uses:
        for part in PARTS:
            if (CRATES / crate / part).exists():
                shutil.copytree(CRATES / crate / part, to / "crates" / crate / part)
        if (CRATES / crate / "out/rlib/stamp").exists():
            shutil.copytree(CRATES / crate / "out/rlib", to / "crates" / crate / "out/rlib")
    for crate in tried:
        shutil.copytree(CRATES / crate / "wrong-bodies", to / "crates" / crate / "must-fail")
    lines = listed()
    (to / "crates.txt").write_text("".join(f"{lines[it]}\n" for it in uses))
    shutil.copyfile(TOP / "HANDLES", to / "HANDLES")


def attempt(names):
    having = {it.parent.parent.name for it in edits("wrong-bodies")}
    lacking = [it for it in names if it not in having]
    if lacking:
        sys.exit(f"no wrong bodies in crates/{lacking[0]}/wrong-bodies")
    tried = names or sorted(having)
    (TOP / "bin").mkdir(exist_ok=True)
    with tempfile.TemporaryDirectory(prefix="wrong-bodies-", dir=TOP / "bin") as room:
        copied(Path(room), with_those_below(tried), tried)
        return subprocess.run(["rt", "must-fail", *tried], cwd=room).returncode


def main():
    words = sys.argv[1:]
    if words[:1] == ["try"]:
        return attempt(words[1:])
    return look()


if __name__ == "__main__":
    sys.exit(main())
