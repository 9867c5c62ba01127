#!/usr/bin/env python3
"""Makes the site by each converter that is here, and looks at what it has.

site_test.py PROGRAM: all pages are there, with no link that leads nowhere; of one state of the sources they are the same bytes. The table
of an example has the T and W that its analysis names. A link that is broken, a page that nothing leads to and a script from elsewhere
are found. Where Chromium is here, no page has to be moved sideways on a wide screen or on a phone, and the search leaves the names that
have the part that is typed. Where there is no converter, that is said, and the status is 77.
"""
import filecmp
import json
import re
import shutil
import subprocess
import sys
import tempfile
from html import unescape
from pathlib import Path

from gallery import COSTS, foot, programs
from site_pages import converters
from site_whole import PAGES, wrong

PROGRAM = Path(sys.argv[1]).resolve()
SCRIPT = Path(__file__).resolve().parent / "site.py"
SKIPPED = 77
WIDTHS = (1200, 390)
BROWSER = ["chromium", "--headless", "--no-sandbox", "--disable-gpu", "--allow-file-access-from-files",
           "--virtual-time-budget=120000", "--dump-dom"]
WIDE = """<pre id="found"></pre><script>
const pages = PAGES, widths = WIDTHS, found = [], frame = document.createElement("iframe");
document.body.append(frame);
function next(at) {
  if (at === pages.length * widths.length) { document.getElementById("found").textContent = JSON.stringify(found); return; }
  const page = pages[at % pages.length], width = widths[Math.floor(at / pages.length)];
  frame.style = `width: ${width}px; height: 800px; border: 0`;
  frame.onload = () => {
    found.push([page, width, frame.contentDocument.documentElement.scrollWidth]);
    next(at + 1);
  };
  frame.src = page;
}
next(0);
</script>
"""
TYPED = """<pre id="found"></pre><script>
const field = document.querySelector("input");
field.value = "Tree";
field.dispatchEvent(new Event("input"));
const shown = [...document.querySelectorAll("#names li")].filter(it => !it.hidden).map(it => it.textContent);
document.getElementById("found").textContent = JSON.stringify(shown);
</script>
"""


def make(folder, name):
    """What is wrong with a site by that converter, if anything is."""
    done = subprocess.run([sys.executable, SCRIPT, folder, PROGRAM, name], capture_output=True, text=True, timeout=600)
    return [] if done.returncode == 0 else [f"by {name}: {done.stdout[-2000:]}{done.stderr[-2000:]}"]


def of_pages(folder):
    """Whether each document and each example has its pages, and scripts stand only where they have to."""
    names = [name for name, _ in programs()]
    wanted = {*PAGES.values(), "find.html", *(f"examples/{it}{more}.html" for it in names for more in ("", "_steps"))}
    there = {str(it.relative_to(folder)): it.read_text() for it in folder.rglob("*.html")}
    scripted = [it for it, text in there.items() if "<script" in text and it != "find.html" and not it.endswith("_steps.html")]
    lacking = [it for it, text in there.items() if "<title>" not in text or not text.startswith("<!DOCTYPE html>")]
    differing = sorted(wanted ^ {*there})
    return [f"{it}: a page too much or too few, a script, or no title" for it in [*differing, *scripted, *lacking]]


def of_example(folder, name, text):
    """Whether the page of an example has its text and pictures, and the time and work of its analysis at its sizes."""
    page = (folder / f"examples/{name}.html").read_text()
    begin = text[: text.index("begin")].splitlines()[-1]
    has = begin in unescape(page) and f'src="{name}_flow.svg"' in page and f'src="{name}_steps.svg"' in page
    if not has:
        yield f"the page of {name} lacks its text or a picture"
    if not foot(text):
        return
    head, *rows = (re.findall(r"<t[hd][^>]*>(.*?)</t[hd]>", it) for it in re.findall(r"<tr>(.*?)</tr>", page[page.index('id="costs"') :]))
    for letter, column in (("T", "time"), ("W", "work")):
        said = COSTS.fullmatch(foot(text)[letter]).groups()[-3:]
        if [it[head.index(column)] for it in rows] != [*said]:
            yield f"the page of {name} has other numbers than {letter} = {foot(text)[letter]}"


def of_broken(folder):
    """Whether what is broken is found."""
    rows = [
        ("index.html", "</main>", '<a href="nowhere.html">x</a></main>', "isn't there"),
        ("index.html", "</main>", '<a href="language.html#nowhere">x</a></main>', "no such mark"),
        ("language.html", "</main>", '<script src="https://example.org/x.js"></script></main>', "fetches"),
        ("find.html", "</main>", '<img src="nowhere.svg"></main>', "isn't there")]
    for name, old, new, said in rows:
        file = folder / name
        text = file.read_text()
        file.write_text(text.replace(old, new))
        if not any(said in it for it in wrong(folder)):
            yield f"it isn't found that {name} has {new}"
        file.write_text(text)
    (folder / "alone.html").write_text("")
    if wrong(folder) != ["no page links to alone.html"]:
        yield "a page isn't found to which nothing leads"
    (folder / "alone.html").unlink()


def of_folder(folder):
    """Whether a folder with something else is left alone."""
    folder.mkdir()
    (folder / "mine").write_text("mine")
    if not make(folder, next(iter(converters()))) or (folder / "mine").read_text() != "mine":
        yield "a folder with something else in it is written over"


def seen(folder, name, text):
    """What a script notes in a page that is opened in the browser."""
    file = folder / name
    file.write_text(text)
    done = subprocess.run([*BROWSER, file.as_uri()], capture_output=True, text=True, timeout=300)
    file.unlink()
    found = re.search(r'<pre id="found">(.+?)</pre>', done.stdout, re.S)
    return json.loads(unescape(found[1])) if found else None


def of_browser(folder):
    """Whether pages fit screens, and the search finds."""
    pages = sorted(str(it.relative_to(folder)) for it in folder.rglob("*.html") if not it.name.endswith("_steps.html"))
    found = seen(folder, "try.html", WIDE.replace("PAGES", json.dumps(pages)).replace("WIDTHS", json.dumps(WIDTHS)))
    if not found or len(found) != len(pages) * len(WIDTHS):
        yield f"the browser opened {len(found or [])} of {len(pages)} pages"
    for page, width, has in found or []:
        if has > width:
            yield f"{page} is {has} wide on a screen of {width}"
    names = seen(folder, "typed.html", (folder / "find.html").read_text().replace("</body>", f"{TYPED}</body>"))
    wanted = [name for name, _ in programs() if "tree" in name]
    if not names or [it.split()[0] for it in names if "(example)" in it] != wanted or not all("tree" in it.lower() for it in names):
        yield f"the search for Tree finds {names}"


def main():
    names = [*converters()]
    if not names:
        print("there is neither pandoc nor python3-markdown")
        sys.exit(SKIPPED)
    with tempfile.TemporaryDirectory() as place:
        found = []
        for name in names:
            folder = Path(place, name)
            found += make(folder, name) + of_pages(folder)
            found += [it for one, text in programs() for it in of_example(folder, one, text)]
        folder, again = Path(place, names[0]), Path(place, "again")
        found += make(again, names[0])
        files = [str(it.relative_to(folder)) for it in folder.rglob("*") if it.is_file()]
        found += [f"{it} comes out otherwise" for it in filecmp.cmpfiles(folder, again, files, shallow=False)[1:] for it in it]
        found += [*of_broken(folder), *of_folder(Path(place, "mine"))]
        browser = shutil.which("chromium")
        found += of_browser(folder) if browser else []
    for it in found:
        print(it)
    seen_by = "seen in Chromium" if browser else "not seen in a browser"
    print(f"site: {len(files)} files, by {' and by '.join(names)}, {seen_by}, {len(found)} wrong")
    sys.exit(1 if found else 0)


if __name__ == "__main__":
    main()
