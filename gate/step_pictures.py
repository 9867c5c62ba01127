#!/usr/bin/env python3
"""Draws the statements of each example, and compares the picture, read as XML, with the text of the same run.

step_pictures.py PROGRAM: each statement that is drawn has its number, its line and the text of that line, and as many boxes as processors
executed it, less those that it says have no row; each box stands in the row that has its index's name; a fault stands below the bands with
those that met there, who are outlined; no element but boxes and texts stands there, and none beyond a page's width. It has a title, and its
view is its size.
"""
import re
import subprocess
import sys
import xml.etree.ElementTree as tree
from concurrent.futures import ThreadPoolExecutor
from pathlib import Path

from gallery import files
from jobs import JOBS

PROGRAM = Path(sys.argv[1]).resolve()
SVG = "{http://www.w3.org/2000/svg}"
RAN = re.compile(r"(\d+) line (\d+) processors (\d+)(?: .*)?")
FAULT = re.compile(r"(\d+) (fault .* line (\d+))(?: processors((?: -?\d+)+))?")
TURNED = re.compile(r"translate\((\d+) (\d+)\)rotate\(-90\)")
MOST_DRAWN, FIRST, LAST, BAND, MOST_ROWS, LETTERS, NAMED = 112, 96, 16, 16, 64, 36, 8
LEFT, WIDE, TALL, PAGE = 160, 64, 20, 1200


def written(words):
    done = subprocess.run([PROGRAM, *words], capture_output=True, text=True, timeout=60)
    if done.returncode not in (0, 1, 3) or done.stderr:
        sys.exit(f"pramc {' '.join(map(str, words))}: {done.returncode} {done.stderr}")
    return done.stdout


def told(text):
    """The statements of a run: number, line, how many executed it or None, the fault and those that met."""
    for line in text.splitlines():
        ran, fault = RAN.fullmatch(line), FAULT.fullmatch(line)
        if ran:
            yield int(ran[1]), int(ran[2]), int(ran[3]), None, []
        elif fault:
            yield int(fault[1]), int(fault[3]), None, fault[2], (fault[4] or "").split()


def at(it):
    return int(it.get("x")), int(it.get("y"))


def code(line):
    """The text of a line as it stands above its column, in one row or two."""
    line = line.strip()
    more = line[LETTERS:]
    return [line[:LETTERS], *([more if len(more) <= LETTERS else more[:LETTERS - 2] + ".."] if more else [])]


def wrong(file, *more):
    """What is wrong with the picture of a program's run on the input beside it, if anything is."""
    words = ["steps", file, "--input", file.with_suffix(".in"), *more]
    entries = list(told(written(words)))
    root = tree.fromstring(written([*words, "--svg"]))
    lines = file.read_text().split("\n")
    cut = len(entries) > MOST_DRAWN
    drawn = entries[:FIRST] + entries[-LAST:] if cut else entries
    texts = [it for it in root.iter(f"{SVG}text") if not it.get("transform")]
    turned = [it for it in root.iter(f"{SVG}text") if it.get("transform")]
    upright = [(tuple(map(int, TURNED.fullmatch(it.get("transform")).groups())), it.text) for it in turned]
    groups = [(it.find(f"{SVG}title").text, it.find(f"{SVG}rect")) for it in root.iter(f"{SVG}g")]
    boxes = [(*at(it), title, it.get("fill")) for title, it in groups]
    tops = [at(it)[1] - 13 for it in texts if it.text == "outside"]
    without = f", without the {len(entries) - MOST_DRAWN} from {FIRST + 1} to {len(entries) - LAST}" if cut else ""
    checks = [texts[0].text == f"statements {len(entries)}{without}", len(tops) == -(-len(drawn) // BAND)]
    bands = list(zip(tops, [*tops[1:], 1 << 30]))
    names = [{at(it)[1] - 13: it.text for it in texts if at(it)[0] == 12 and top <= at(it)[1] < low} for top, low in bands]
    for j, (k, line, count, fault, met) in enumerate(drawn):
        (top, low), x = bands[j // BAND], LEFT + WIDE * (j % BAND)
        here = {at(it)[1] - top: it.text for it in texts if at(it)[0] == x}
        acting = [(y, it) for left, y, it, fill in boxes if left == x and top <= y < low and fill != "none"]
        rows = [names[j // BAND].get(y) for y, _ in acting]
        said = [re.sub(r" (reads|writes) .*", "", it) for _, it in acting]
        wanted = ["outside pardo" if it == "outside" else f"processor {it}" for it in rows]
        outlined = [it for left, y, it, fill in boxes if left == x and top <= y < low and fill == "none"]
        more = [int(it.text[1:]) for it in texts if at(it)[0] == x and top <= at(it)[1] < low and it.text.startswith("+")]
        checks += [here[-26] == str(k), here[-9] == f"line {line}", said == wanted]
        checks += [[it for (left, y), it in upright if x < left < x + WIDE and y == top - 42] == code(lines[line - 1])]
        checks += [count is None or len(said) + sum(more) == count, outlined == [f"processor {i} met" for i in met][:MOST_ROWS]]
    fault, met = next(((fault, met) for _, _, _, fault, met in drawn if fault), (None, []))
    behind = [it.text for it in texts if at(it)[1] > max(tops) and at(it)[0] == 12 and it.text.startswith(("fault", "met: "))]
    rest = f" and {len(met) - NAMED} more" if len(met) > NAMED else ""
    checks += [behind == [*([fault] if fault else []), *([f"met: processors {' '.join(met[:NAMED])}{rest}"] if met else [])]]
    kinds = {it.tag.removeprefix(SVG) for it in root.iter()}
    checks += [kinds <= {"svg", "title", "defs", "pattern", "rect", "text", "g"}, int(root.get("width")) <= PAGE]
    checks += [root.get("version") == "1.1", root.get("viewBox") == f"0 0 {root.get('width')} {root.get('height')}"]
    checks += [root.find(f"{SVG}title").text == "A run, statement by statement"]
    return [] if all(checks) else [f"{file.name}: {checks}"]


def main():
    with ThreadPoolExecutor(JOBS) as pool:
        found = list(pool.map(wrong, files()))
    for it in sum(found, []):
        print(it)
    print(f"step pictures: {found.count([])} of {len(found)} runs are drawn as they are told")
    sys.exit(1 if any(found) else 0)


if __name__ == "__main__":
    main()
