#!/usr/bin/env python3
"""Steps through the pages of thirteen runs in a browser without a screen, wide and on a phone, and compares what they show with what is told.

page_test.py PROGRAM: `PROGRAM steps FILE --html` writes the page of a run. A script behind the page's own presses its keys and buttons and
moves its slider, and notes what is shown; Chromium writes the document that this leaves. What is wanted at each moment is worked out here, from
what `--format json` tells of the whole run; of one run, whose array has bounds below 0, from facts that are written by hand.
"""
import json
import re
import shutil
import subprocess
import sys
import tempfile
from html import unescape
from pathlib import Path

from gallery import EXAMPLES

PROGRAM = Path(sys.argv[1]).resolve()
PAGES = Path(__file__).resolve().parent / "pages"
HOSTILE = "<img src=x onerror=alert(1)>'&quot;\"</title>.pram"
BROWSER = ["chromium", "--headless", "--no-sandbox", "--disable-gpu", "--virtual-time-budget=60000", "--window-size=1300,900", "--dump-dom"]
SIZES = {"wide": (1200, 800), "phone": (375, 667)}
MOST = 32
FEW = 120

NOTES = """<script>
(function () {
  function all(path, f) { return Array.prototype.map.call(document.querySelectorAll(path), f); }
  function text(id) { return document.getElementById(id).textContent; }
  function texts(e) { return Array.prototype.map.call(e.children, function (c) { return c.textContent; }); }
  function box(id) { var r = document.getElementById(id).getBoundingClientRect(); return [r.left, r.top, r.right, r.bottom]; }
  function shown() {
    var cells = {}, variables = {}, widths = {};
    all('.cell', function (e) {
      if (e.parentNode.hidden) { return; }
      var t = texts(e);
      cells[t[0]] = { value: t[1], marks: e.className, notes: t.slice(2) };
      widths[t[0]] = e.getBoundingClientRect().width;
    });
    all('#variables tr', function (e) { variables[e.children[0].textContent] = e.children[1].textContent; });
    return { cells: cells, widths: widths, variables: variables, output: text('output'), now: text('now'),
      running: all('#text .line', function (e, i) { return e.className === 'line running' ? i + 1 : 0; }).filter(Boolean),
      part: all('#text mark', function (e) { return e.textContent; }),
      head: all('#acts tr', texts).slice(0, 1), acts: all('#acts tr', texts).slice(1), active: text('active'),
      folds: all('.fold span', function (e) { return e.textContent; }),
      fault: document.getElementById('fault-text').hidden ? null : text('fault-text'),
      places: { text: box('text'), memory: box('memory'), acts: box('acts'), output: box('output') },
      scrolled: [document.documentElement.scrollWidth - window.innerWidth, document.documentElement.scrollHeight - window.innerHeight] };
  }
  function key(name) { document.dispatchEvent(new KeyboardEvent('keydown', { key: name, bubbles: true })); }
  function press(id) { document.getElementById(id).click(); }
  var slider = document.getElementById('slider'), last = Number(slider.max), seen = { at: {}, back: {}, pardos: [] }, i;
  function slide(to) { slider.value = to; slider.dispatchEvent(new Event('input')); }
  if (last <= FEW) {
    seen.at[0] = shown();
    for (i = 1; i <= last; i += 1) { key('ArrowRight'); seen.at[i] = shown(); }
    for (i = last; i > 0; i -= 1) { seen.back[i] = shown(); press('back'); }
    seen.back[0] = shown();
  } else {
    VISITS.forEach(function (v) { slide(v); seen.at[v] = shown(); });
    VISITS.slice().reverse().forEach(function (v) { slide(v); seen.back[v] = shown(); });
  }
  key('End'); seen.end = shown();
  key('Home'); seen.home = shown();
  press('last'); seen.last = shown(); seen.last_text = text('last');
  press('first'); seen.first = shown();
  slide(1); seen.slid = shown();
  press('forward'); seen.second = shown();
  press('first');
  for (i = 0; i < 4 && !document.getElementById('pardo-forward').disabled; i += 1) { press('pardo-forward'); seen.pardos.push(text('now')); }
  press('play'); seen.playing = text('play');
  press('play'); seen.paused = text('play');
  seen.title = document.title; seen.heading = text('title'); seen.lines = all('#text .line', texts); seen.max = last;
  seen.cut = document.getElementById('cut').hidden ? null : text('cut');
  seen.names = all('button, input, select, section, [role=group]', function (e) {
    var by = e.getAttribute('aria-labelledby');
    return by ? text(by) : e.getAttribute('aria-label') || e.textContent; });
  seen.fetched = all('[src], link, img, iframe', function (e) { return e.outerHTML; });
  var note = parent.document.createElement('pre');
  note.id = 'seen';
  note.textContent = JSON.stringify(seen);
  parent.document.body.appendChild(note);
}());
</script>
"""
FRAME = "<body style='margin:0'><iframe id='f' style='width:{}px;height:{}px;border:0'></iframe><script>document.getElementById('f').srcdoc = {};</script></body>"


def written(path, given, *options):
    """What the program writes of the steps of a program."""
    words = ["steps", str(path), *(["--input", str(given)] if given else []), *options]
    done = subprocess.run([PROGRAM, *words], capture_output=True, text=True, timeout=120)
    if done.returncode not in (0, 1, 3) or done.stderr:
        sys.exit(f"{path}: {done.returncode} {done.stderr}")
    return done.stdout


def facts_of(page):
    found = re.findall(r"<script type='application/json' id='facts'>\n(.*?)</script>", page, re.DOTALL)
    if len(found) != 1 or "<" in found[0]:
        sys.exit("the facts don't stand in the page")
    return json.loads(found[0])


def browsed(page, visits, width, height):
    """What the page showed on the way, in a frame of that size."""
    notes = NOTES.replace("VISITS", json.dumps(visits)).replace("FEW", str(FEW))
    inner = json.dumps(page.replace("</body>", notes + "</body>")).replace("<", "\\u003c")
    with tempfile.TemporaryDirectory() as folder:
        at = Path(folder) / "page.html"
        at.write_text(FRAME.format(width, height, inner))
        done = subprocess.run([*BROWSER, f"file://{at}"], capture_output=True, text=True, timeout=300)
    found = re.findall(r'<pre id="seen">(.*?)</pre>', done.stdout, re.DOTALL)
    if len(found) != 1:
        sys.exit(f"the browser showed nothing: {done.stderr[-2000:]}")
    return json.loads(unescape(found[0]))


def at_address(page, mark):
    """What a page that is opened at a statement shows first."""
    note = "<script>var n = document.createElement('pre'); n.id = 'seen'; n.textContent = document.getElementById('now').textContent;" \
        " document.body.appendChild(n);</script>"
    with tempfile.TemporaryDirectory() as folder:
        at = Path(folder) / "page.html"
        at.write_text(page.replace("</body>", note + "</body>"))
        done = subprocess.run([*BROWSER, f"file://{at}#{mark}"], capture_output=True, text=True, timeout=120)
    return unescape(re.findall(r'<pre id="seen">(.*?)</pre>', done.stdout, re.DOTALL)[0])


def names_of(cell):
    if "low" not in cell:
        return [cell["name"]]
    return [f"{cell['name']}[{i}]" for i in range(int(cell["low"]), int(cell["high"]) + 1)]


def pardo_of(opening, step):
    place = (step["line"], step.get("column", 10**9))
    starts = [(it["line"], it["offset"] - (opening["program"].rfind("\n", 0, it["offset"]) + 1) + 1) for it in opening["pardos"]]
    inside = [(s, it) for s, it in zip(starts, opening["pardos"]) if s <= place]
    return inside[-1] if inside else (None, None)


def is_outside(step):
    return [it["processor"] for it in step["acts"]] == [None]


def enters(opening, step):
    start, pardo = pardo_of(opening, step)
    return pardo is not None and is_outside(step) and start[0] == step["line"] and step.get("column", start[1]) == start[1]


def wrote(step, act, values):
    mine = [it for it in step.get("writers", []) if it["processor"] == act["processor"]]
    if mine:
        return f"{step['place']} := {mine[0]['value']}, refused"
    if act["write"] is None:
        return ""
    several = sum(it["write"] == act["write"] for it in step["acts"]) > 1
    return act["write"] + (" together, now " if several else " := ") + values[act["write"]]


def row_of(step, act, before, values, names, old, new):
    reads = [f"{it} = {before[it]}" for it in act["reads"]]
    if act["processor"] in step.get("met", []) and "writers" not in step:
        reads.append(f"{step['place']}, refused")
    who = "outside pardo" if act["processor"] is None else act["processor"]
    pairs = [(old.get((who, x), "0"), new.get((who, x), "0")) for x in names]
    return [who, ", ".join(reads), wrote(step, act, values), *(b if a == b else f"{a} \u2192 {b}" for a, b in pairs)]


def moments_of(opening, steps):
    """The values of cells and variables, the output, the line and who did what, before each statement and behind the last."""
    cells = [it for cell in opening["cells"] for it in names_of(cell)]
    given = opening["input"] + ["0"] * len(cells)
    values, variables, output, local = dict(zip(cells, given)), dict.fromkeys(opening["variables"], "0"), [], {}
    moments = [{"values": dict(values), "variables": dict(variables), "output": [], "running": [], "acts": [], "changed": {}}]
    for step in steps:
        before, old, changed = dict(values), dict(local), {}
        if enters(opening, step):
            local = {}
        for it in step.get("changes", []):
            values[it["cell"]] = it["after"]
        for it in step.get("variables", []):
            name = opening["variables"][it["variable"]]
            variables[name], changed[name] = it["after"], f"{it['before']} \u2192 {it['after']}"
        for it in step.get("locals", []):
            local[it["processor"], it["local"]] = it["after"] if "after" in it else it["value"]
        output += step.get("printed", [])
        names = [] if is_outside(step) or not step["acts"] else pardo_of(opening, step)[1]["locals"]
        acts = [row_of(step, it, before, values, names, old, local) for it in step["acts"]]
        moments.append({"values": dict(values), "variables": {**variables, **changed}, "output": list(output), "running": [step["line"]],
                        "acts": acts, "was": before})
    return moments


def marks_of(step):
    """The cells that are marked, and how."""
    marks = {}
    for act in step["acts"]:
        for cell in act["reads"]:
            marks.setdefault(cell, set()).add("read")
        if act["write"] is not None:
            marks.setdefault(act["write"], set()).add("written")
    if "met" in step:
        marks.setdefault(step["place"], set()).add("conflict")
    return marks


def notes_differ(shown, moment, step):
    """Whether a cell that a statement touches tells another value before it, or another who."""
    for name, marks in marks_of(step).items():
        it = shown["cells"].get(name)
        if it is None:
            continue
        was, read, wrote_it = it["notes"]
        before, now = moment["was"][name], moment["values"][name]
        if was != ("" if before == now or not step.get("changes") else f"was {before}"):
            return True
        if "read" in marks and not read.startswith("r ") or marks == {"written"} and not wrote_it.startswith("w "):
            return True
    return False


def differs(shown, moment, step, folded):
    cells = {name: it["value"] for name, it in shown["cells"].items()}
    marks = {name: set(it["marks"].split()[1:]) for name, it in shown["cells"].items() if it["marks"] != "cell"}
    wanted = {name: it for name, it in marks_of(step or {"acts": []}).items() if name in moment["values"]}
    checks = {"cells": all(moment["values"][n] == v for n, v in cells.items()), "touched": set(wanted) <= set(cells),
              "all": folded or set(cells) == set(moment["values"]), "variables": shown["variables"] == moment["variables"],
              "output": shown["output"] == "\n".join(moment["output"]), "running": shown["running"] == moment["running"],
              "acts": shown["acts"] == moment["acts"] if len(moment["acts"]) <= MOST else len(shown["acts"]) == MOST,
              "marks": marks == wanted, "fault": (shown["fault"] is not None) == ("met" in (step or {})),
              "met": all(f" {it}" in shown["fault"] for it in (step or {}).get("met", [])),
              "notes": step is None or not notes_differ(shown, moment, step)}
    return [name for name, holds in checks.items() if not holds]


def places_differ(shown, size, small):
    """Whether what matters is out of sight: on a wide screen each part, on a phone the processors; and nothing is wider than the screen."""
    width, height = SIZES[size]
    wrong = ["wider than the screen"] if shown["scrolled"][0] > 0 else []
    if size == "wide":
        wrong += ["higher than the screen"] if shown["scrolled"][1] > 0 else []
        seen = shown["places"].items() if small else [(it, shown["places"][it]) for it in ("text", "acts")]
        wrong += [name for name, (left, top, right, bottom) in seen if top < 0 or top > height - 20 or small and bottom > height or left > width]
    return wrong + (["the processors are not above the fold"] if shown["acts"] and shown["places"]["acts"][1] > height - 40 else [])


def widths_differ(seen):
    widths = {}
    for it in seen["at"].values():
        for name, width in it["widths"].items():
            widths.setdefault(name, set()).add(round(width))
    return [name for name, it in widths.items() if len(it) > 1]


def common_wrong(page, opening, seen, file, faulted):
    lines = opening["program"].split("\n")
    lines = lines[:-1] if lines[-1] == "" else lines
    checks = {"end": seen["end"] == seen["last"], "home": seen["home"] == seen["first"], "names": all(seen["names"]),
              "fetched": seen["fetched"] == [], "size": len(page.encode()) <= 2**21, "back": seen["at"] == seen["back"],
              "title": file in seen["title"] and seen["heading"] == seen["title"], "play": (seen["playing"], seen["paused"]) == ("Pause", "Play"),
              "lines": seen["lines"] == [[str(i + 1), it] for i, it in enumerate(lines)],
              "last": seen["last_text"] == ("To the fault" if faulted else "End"), "widths": widths_differ(seen) == []}
    return [name for name, holds in checks.items() if not holds]


def compared(name, page, told, file):
    """What is wrong with a page, of which all that is told of the run is known."""
    facts = facts_of(page)
    opening, kept = facts[0], [it for it in facts if "step" in it]
    steps = [it for it in told if "step" in it]
    numbers = [0] + [it["step"] for it in kept]
    gaps = [i for i in range(1, len(numbers)) if numbers[i] != numbers[i - 1] + 1]
    numbers = [n for i, n in enumerate(numbers) for n in ([None, n] if i in gaps else [n])]
    if numbers[-1] != len(steps):
        gaps.append(len(numbers))
        numbers.append(None)
    moments = moments_of(opening, steps)
    visits = sorted({i for i in [0, 1, 2, 3, *(g + d for g in gaps for d in (-2, -1, 0, 1, 2)), *range(len(numbers) - 3, len(numbers))] if 0 <= i < len(numbers)})
    folded = any("low" in it and int(it["high"]) - int(it["low"]) >= 64 for it in opening["cells"])
    wrong = [] if [it for it in facts if it.get("step")] == [it for it in steps if it["step"] in set(numbers)] else ["other facts"]
    for size, (width, height) in SIZES.items():
        seen = browsed(page, visits, width, height)
        wrong += [f"{size}: {it}" for it in common_wrong(page, opening, seen, file, any("met" in it for it in steps))]
        wrong += [] if seen["max"] == len(numbers) - 1 and (seen["cut"] is not None) == (gaps != []) else [f"{size}: the gap is not told"]
        for at, shown in seen["at"].items():
            number = numbers[int(at)]
            if number is None:
                wrong += [] if "are not on this page" in shown["now"] else [f"{size}: the gap is not told at {at}"]
            else:
                wrong += [f"{size}, moment {at}: {it}" for it in differs(shown, moments[number], steps[number - 1] if number else None, folded)]
            wrong += [f"{size}, moment {at}: {it}" for it in places_differ(shown, size, name == "tree_sum")]
    second = kept[min(1, len(kept) - 1)]["step"]
    if len(steps) > 2 and not at_address(page, second).startswith(f"Statement {second} of"):
        wrong.append("the address is not followed")
    return [f"{name}: {it}" for it in wrong]


def of_run(name, path, given, *options, window=()):
    """A page of a run, or of the statements of a window, beside all that is told of the run."""
    page = written(path, given, "--html", *options, *window)
    told = [json.loads(line) for line in written(path, given, "--format", "json", *options).splitlines()]
    return compared(name, page, told, path.name)


def of_facts(name, page):
    """A page whose facts are replaced by others."""
    facts = json.loads((PAGES / f"{name}.json").read_text())
    text = json.dumps(facts)[1:].replace("<", "\\u003c")
    at = page.index("id='facts'>\n[") + len("id='facts'>\n[")
    return compared(name, page[:at] + text + page[page.index("</script>", at):], facts, f"{name}.pram")


def rows_wrong():
    """What is wrong with pages of a statement that touches more rows than are shown, and of none."""
    wrong = []
    for name, rows, shown in (("row_of_fault", 65, "a[2048]"), ("many_rows", 64, "a[1024]")):
        page = written(PAGES / f"{name}.pram", None, "--html")
        for size, (width, height) in SIZES.items():
            end = browsed(page, [], width, height)["end"]
            told = f"a has 2,048 cells; of the 128 rows that this statement touches {rows} are shown. "
            wrong += [] if end["folds"] == [told] and len(end["cells"]) == 16 * rows and shown in end["cells"] else [f"{name}, {size}: rows"]
            wrong += [f"{name}, {size}: {it}" for it in places_differ(end, size, False)]
    seen = browsed(written(PAGES / "many_rows.pram", None, "--html", "--from", "9"), [], *SIZES["wide"])
    told = "This page has no statement of the run, which has 2 statements."
    folds = ["a has 2,048 cells; no row is shown. "]
    return wrong + ([] if seen["cut"] == told and seen["end"]["folds"] == folds else [f"no statement: {seen['cut']}, {seen['end']['folds']}"])


def main():
    found = rows_wrong()
    for name in ("tree_sum", "bitonic_sort", "conflict_erew", "odd_even_sort"):
        found += of_run(name, EXAMPLES / f"{name}.pram", EXAMPLES / f"{name}.in")
    found += of_run("far_cells", PAGES / "far_cells.pram", PAGES / "far_cells.in")
    found += of_run("long", PAGES / "long.pram", None)
    found += of_run("goes_on", PAGES / "goes_on.pram", None, "--bound", "60")
    found += of_run("printed", PAGES / "printed.pram", None, window=("--from", "20", "--to", "26"))
    found += of_run("held", PAGES / "held.pram", None, window=("--from", "3"))
    with tempfile.TemporaryDirectory() as folder:
        path = Path(folder) / HOSTILE.replace("/", "")
        shutil.copy(PAGES / "hostile.pram", path)
        found += of_run("hostile", path, None)
    found += of_facts("negative", written(EXAMPLES / "tree_sum.pram", EXAMPLES / "tree_sum.in", "--html"))
    for it in found:
        print(it)
    print(f"pages: {'not all' if found else 'all'} of 13 runs are shown as is told of them, on a wide screen and on a phone")
    sys.exit(1 if found else 0)


main()
