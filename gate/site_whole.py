"""The whole site: its documents, its examples, the page of all names, and what is wrong with its links."""
import html
import posixpath
import re
import shutil
import sys
from concurrent.futures import ThreadPoolExecutor
from html.parser import HTMLParser
from pathlib import Path

from gallery import EXAMPLES, programs
from jobs import JOBS
from site_examples import Example, abouts, body, files
from site_pages import ELSEWHERE, framed, from_markdown, linked, title_of

TOP = Path(__file__).resolve().parent.parent
MARK = ".made-by-site"
# Each document that is on the site, and its page.
PAGES = {
    "README.md": "index.html", "docs/TUTORIAL.md": "tutorial.html", "docs/LANGUAGE.md": "language.html",
    "docs/REFUSALS.md": "refusals.html", "docs/MACHINE.md": "machine.html", "docs/EVERY_INPUT.md": "every-input.html",
    "docs/SCALE.md": "scale.html", "CHANGELOG.md": "changes.html",
    "python/README.md": "python.html", "docs/schema/README.md": "schema.html", "examples/README.md": "examples/index.html"}
COPIED = {"LICENSE": "license.txt", "docs/notebooks/first_hour.ipynb": "first_hour.ipynb",
          "docs/schema/pramc.schema.json": "pramc.schema.json"}
SEARCH = """<script>
"use strict";
(function () {
  const list = document.getElementById("names"), field = document.createElement("input"), label = document.createElement("label");
  label.textContent = "A part of a name: ";
  label.className = "search";
  field.type = "search";
  label.append(field);
  list.before(label);
  field.addEventListener("input", function () {
    const part = field.value.trim().toLowerCase();
    for (const it of list.children) it.hidden = !it.textContent.toLowerCase().includes(part);
  });
})();
</script>
"""


class Page(HTMLParser):
    """What a page has: its links, its marks, and what it would fetch."""

    def __init__(self, text):
        super().__init__()
        self.links, self.marks, self.fetched = [], set(), []
        self.feed(text)

    def handle_starttag(self, tag, attributes):
        said = dict(attributes)
        self.links += [said["href"]] if "href" in said and tag == "a" else []
        self.fetched += [said["src"]] if "src" in said else []
        self.fetched += [said["href"]] if "href" in said and tag == "link" else []
        self.marks |= {said[it] for it in ("id", "name") if said.get(it)}


def places():
    """Where each file of the sources stands on the site."""
    found = {**PAGES, **COPIED, "examples": "examples/index.html"}
    for name, _ in programs():
        found[f"examples/{name}.pram"] = f"examples/{name}.html"
    found.update((f"examples/flows/{it.name}", f"examples/flows/{it.name}") for it in (EXAMPLES / "flows").glob("*.svg"))
    return found


def documents(convert):
    """The pages of the documents, and their names: page, mark, and what is named."""
    known, pages, names = places(), {}, []
    for source, page in PAGES.items():
        text = (TOP / source).read_text()
        made = linked(from_markdown(text, convert), source, page, known)
        pages[page] = framed(title_of(text), made, page)
        names += [(page, "", title_of(text))]
        for mark, heading in re.findall(r'<h[23] id="([^"]*)">(.*?)</h[23]>', made, re.S):
            names.append((page, f"#{mark}", f"{html.unescape(re.sub('<[^>]*>', '', heading))} ({title_of(text)})"))
    return pages, names


def examples(program):
    """The pages of the examples with their pictures, and their names."""
    said = abouts((EXAMPLES / "README.md").read_text())
    several = [Example(name, text, said.get(name, ""), program) for name, text in programs()]
    with ThreadPoolExecutor(JOBS) as pool:
        made = list(pool.map(lambda it: (it, body(it), list(files(it))), several))
    pages, names = {}, []
    for it, text, drawn in made:
        page = f"examples/{it.name}.html"
        pages[page] = framed(f"{it.name}, an example", text, page)
        pages.update((f"examples/{name}", content) for name, content in drawn)
        for kind in ("pram", "in"):
            pages[f"examples/{it.name}.{kind}"] = (EXAMPLES / f"{it.name}.{kind}").read_text()
        names.append((page, "", f"{it.name} (example)"))
    return pages, names


def find(names):
    """The page of all names."""
    ordered = sorted(names, key=by_name)
    rows = "".join(f'<li><a href="{html.escape(page + mark)}">{html.escape(name)}</a></li>\n' for page, mark, name in ordered)
    return framed("Find", f'<h1>Find</h1>\n<ul class="names" id="names">\n{rows}</ul>\n', "find.html", SEARCH)


def by_name(row):
    return row[2].casefold(), row


def wrong(folder):
    """Links that lead nowhere, what would be fetched from elsewhere, and pages to which no way leads."""
    pages = {str(it.relative_to(folder)): Page(it.read_text()) for it in sorted(folder.rglob("*.html"))}
    found, reached = [], {"index.html"}
    for page, said in pages.items():
        for link in [*said.links, *said.fetched]:
            path, _, mark = link.partition("#")
            if ELSEWHERE.match(link):
                found += [f"{page} fetches {link}"] if link in said.fetched else []
                continue
            target = posixpath.normpath(posixpath.join(posixpath.dirname(page), path)) if path else page
            reached |= {target} if target != page else set()
            if not (folder / target).is_file():
                found.append(f"{page} links to {link}, which isn't there")
            elif mark and target in pages and mark not in pages[target].marks and not target.endswith("_steps.html"):
                found.append(f"{page} links to {link}, which has no such mark")
    return found + [f"no page links to {it}" for it in sorted({*pages} - reached)]


def emptied(folder):
    """The folder, empty: it is new, or one that this made."""
    if folder.exists():
        if any(folder.iterdir()) and not (folder / MARK).exists():
            sys.exit(f"{folder} has something else in it")
        shutil.rmtree(folder)
    folder.mkdir(parents=True)
    (folder / MARK).write_text("")


def write(folder, program, convert):
    """The whole site."""
    emptied(folder)
    pages, names = documents(convert)
    more, others = examples(program)
    for page, text in {**pages, **more, "find.html": find(names + others)}.items():
        (folder / page).parent.mkdir(parents=True, exist_ok=True)
        (folder / page).write_text(text)
    for source, place in COPIED.items():
        shutil.copyfile(TOP / source, folder / place)
    shutil.copytree(EXAMPLES / "flows", folder / "examples/flows")
