#!/usr/bin/env python3
"""Draws the trace of each example, and compares the picture, read as XML, with the trace that is written.

pictures.py PROGRAM: each exchange that is drawn has its number, its kind and its h, and for each worker the words that it sent and
received, by bars that stand within their column and are as tall as the words are to the most, with the worker's number below; the scale
has marks for 0, the half and the most, where such bars end; the lines of statements are those that the trace has; the last text says how
the run came out, no element but boxes, lines and texts stands there, and the picture has a title and fits any window.
"""
import re
import subprocess
import sys
import xml.etree.ElementTree as tree
from concurrent.futures import ThreadPoolExecutor
from pathlib import Path

from gallery import files
from jobs import JOBS

PROGRAM = Path(sys.argv[1]).resolve()
SVG = "{http://www.w3.org/2000/svg}"
LINE = re.compile(r"(\d+) (\w+) sent ((?:\d+ )+)received ((?:\d+ )+)h (\d+)(?: line (\d+))?")
AXIS = re.compile(r"M\d+ (\d+)L")
MOST_DRAWN = 200


def written(words):
    done = subprocess.run([PROGRAM, *words], capture_output=True, text=True, timeout=60)
    if done.returncode not in (0, 1, 3) or done.stderr:
        sys.exit(f"pramc {' '.join(map(str, words))}: {done.returncode} {done.stderr}")
    return done.stdout


def traced(text):
    """The exchanges of a trace: number, kind, words sent, words received, h, and the line where it is told."""
    found = [LINE.fullmatch(line).groups() for line in text.splitlines()]
    return [
        (int(k), kind, [*map(int, sent.split())], [*map(int, received.split())], int(h), at)
        for k, kind, sent, received, h, at in found
    ]


def bars(root):
    """Each bar's name, its left edge, and how far it goes up and down from the axis."""
    axis = int(AXIS.match(next(root.iter(f"{SVG}path")).get("d"))[1])
    for it in root.iter(f"{SVG}g"):
        bar = it.find(f"{SVG}rect")
        top, height = int(bar.get("y")), int(bar.get("height"))
        yield it.find(f"{SVG}title").text, int(bar.get("x")), axis - top, top + height - axis


def tall(words, most):
    return -(-words * 100 // most) if most else 0


def wanted(exchanges, left, width):
    most = max(h for *_, h, _ in exchanges)
    for k, _, sent, received, _, _ in exchanges:
        for did, words in (("sent", sent), ("received", received)):
            for w, count in enumerate(words):
                up, down = (tall(count, most), 0) if did == "sent" else (0, tall(count, most))
                yield f"worker {w} {did} {count}", left + width * (k - 1) + 4 + 14 * w, up, down


def marks(most):
    """The texts of the scale behind its titles."""
    return [str(n) for n in (most // 2, most) if n for _ in range(2)]


def column(k, kind, h, line, workers):
    return [str(k), kind, f"h {h}", *([f"line {line}"] if line else []), *map(str, range(workers))]


def wrong(file, *more):
    """What is wrong with the picture of a program's run on the input beside it, if anything is."""
    words = [file, "--input", file.with_suffix(".in"), "--workers", "3", *more]
    exchanges = traced(written(["trace", *words, "--lines"]))
    root = tree.fromstring(written(["trace", *words, "--svg"]))
    drawn = exchanges[:MOST_DRAWN]
    texts = [it.text for it in root.iter(f"{SVG}text")]
    cut = f", of which the first {MOST_DRAWN} are drawn" if len(exchanges) > MOST_DRAWN else ""
    said = [f"workers 3, exchanges {len(exchanges)}{cut}", "words sent", "words received"]
    said += ["h: the most words that one worker sent or received"]
    said += [it for k, kind, _, _, h, line in drawn for it in column(k, kind, h, line, 3)]
    said += ["exchange", "words sent", "0", "words received", "worker"]
    said += marks(max(h for *_, h, _ in drawn))
    kinds = {it.tag.removeprefix(SVG) for it in root.iter()}
    known = {"svg", "rect", "path", "g", "text", "title", "defs", "pattern"}
    checks = [texts[:-1] == said, list(bars(root)) == list(wanted(drawn, 168, 92)), kinds == known]
    wide, high = root.get("width"), root.get("height")
    checks += [int(wide) >= 180 + 92 * len(drawn), root.get("version") == "1.1", root.get("viewBox") == f"0 0 {wide} {high}"]
    checks.append(root.find(f"{SVG}title").text == "The exchanges of a run")
    return [] if all(checks) else [f"{file.name}: {checks}"]


def main():
    with ThreadPoolExecutor(JOBS) as pool:
        found = list(pool.map(wrong, files()))
    for it in sum(found, []):
        print(it)
    print(f"pictures: {found.count([])} of {len(found)} traces are drawn as they are written")
    sys.exit(1 if any(found) else 0)


if __name__ == "__main__":
    main()
