"""Pages of HTML: from Markdown by pandoc or python3-markdown, in one frame, with links between pages of the site."""
import html
import os
import posixpath
import re
import shutil
import subprocess

LINK = re.compile(r'<a\b[^>]*?\bhref="([^"]*)"[^>]*>(.*?)</a>', re.S)
SOURCE = re.compile(r'\bsrc="([^"]*)"')
FENCE = re.compile(r"^```(\w+) [^\n`]*$", re.M)
ELSEWHERE = re.compile(r"[a-z]+:", re.I)
TOP_LINKS = [("Start", "index.html"), ("Tutorial", "tutorial.html"), ("Language", "language.html"), ("Refusals", "refusals.html"),
             ("Machine", "machine.html"), ("Every input", "every-input.html"), ("Examples", "examples/index.html"), ("Find", "find.html")]
STYLE = """
:root { color-scheme: light; }
* { box-sizing: border-box; }
body { margin: 0 auto; padding: 0 1rem 3rem; max-width: 62rem; color: #1a1a1a; background: #ffffff; font: 1rem/1.5 sans-serif; }
nav { display: flex; flex-wrap: wrap; gap: 0 1.1rem; padding: .6rem 0; border-bottom: 1px solid #c0c0c0; }
nav a { padding: .25rem 0; }
h1 { font-size: 1.7rem; line-height: 1.2; }
h2 { margin-top: 2.2rem; font-size: 1.3rem; }
a { color: #00529b; overflow-wrap: anywhere; }
a:focus-visible, input:focus-visible { outline: 3px solid #e69f00; }
code, pre { font: .9rem/1.4 monospace; }
pre { padding: .6rem .8rem; overflow-x: auto; background: #f4f4f4; border: 1px solid #dddddd; }
p code, li code { overflow-wrap: anywhere; }
.wide { overflow-x: auto; }
table { border-collapse: collapse; }
th, td { padding: .25rem .6rem; border: 1px solid #c0c0c0; text-align: left; vertical-align: top; min-width: 3.5rem; }
td.number { text-align: right; }
dt { font-weight: bold; }
dd { margin: 0 0 .5rem 1.2rem; }
.names { columns: 16rem; column-gap: 2rem; padding: 0; list-style: none; }
.names li { padding: .15rem 0; break-inside: avoid; }
input { width: 100%; max-width: 30rem; padding: .4rem; font-size: 1rem; }
@media print {
  nav, .search { display: none; }
  body { max-width: none; padding: 0; font-size: 10pt; }
  pre { white-space: pre-wrap; }
  .wide { overflow: visible; }
  .wide img { max-width: 100%; height: auto; max-height: 24cm; }
  table { font-size: 8pt; }
  th, td { min-width: 0; overflow-wrap: anywhere; }
  pre, img { break-inside: avoid; }
}
"""


def by_pandoc(text):
    words = ["pandoc", "--from", "gfm", "--to", "html5", "--no-highlight", "--wrap=none"]
    return subprocess.run(words, input=text, capture_output=True, text=True, check=True, timeout=120).stdout


def by_markdown(text):
    import markdown

    return markdown.markdown(text, extensions=["tables", "fenced_code", "toc", "sane_lists"])


def converters():
    """The converters that are here, by their names, the preferred one first."""
    found = {"pandoc": by_pandoc} if shutil.which("pandoc") else {}
    try:
        import markdown  # noqa: F401
    except ImportError:
        return found
    return {**found, "markdown": by_markdown}


def from_markdown(text, convert):
    """The body of a page: fences keep the kind of their text alone, and what is wide can be moved sideways."""
    body = convert(FENCE.sub(r"```\1", text))
    body = re.sub(r"<(colgroup|col)\b.*?(</colgroup>|/>|>)", "", body, flags=re.S)
    body = re.sub(r"<table\b[^>]*>", '<div class="wide"><table>', body).replace("</table>", "</table></div>")
    return re.sub(r"<p>(<img\b[^>]*>)</p>", r'<div class="wide">\1</div>', body)


def relative(target, page):
    """A file of the site, as it is linked from a page."""
    return os.path.relpath(target, posixpath.dirname(page) or ".")


def linked(body, source, page, places):
    """A body whose links lead to pages of the site. `places` says where a file of the sources stands there; others are no links."""

    def place(link):
        path, _, part = link.partition("#")
        if not path:
            return link
        found = places.get(posixpath.normpath(posixpath.join(posixpath.dirname(source), path)))
        return found and relative(found, page) + (f"#{part}" if part else "")

    def link(found):
        if ELSEWHERE.match(found[1]):
            return found[0]
        to = place(html.unescape(found[1]))
        return f'<a href="{html.escape(to)}">{found[2]}</a>' if to else found[2]

    def picture(found):
        to = place(html.unescape(found[1]))
        if not to:
            raise SystemExit(f"{source}: the picture {found[1]} is not on the site")
        return f'src="{html.escape(to)}"'

    return SOURCE.sub(picture, LINK.sub(link, body))


def framed(title, body, page, script=""):
    """A whole page."""
    links = "\n".join(f'<a href="{relative(to, page)}">{name}</a>' for name, to in TOP_LINKS)
    return (
        '<!DOCTYPE html>\n<html lang="en">\n<head>\n<meta charset="utf-8">\n'
        '<meta name="viewport" content="width=device-width, initial-scale=1">\n'
        f"<title>{html.escape(title)}</title>\n<style>{STYLE}</style>\n</head>\n"
        f"<body>\n<nav>\n{links}\n</nav>\n<main>\n{body}</main>\n{script}"
        "</body>\n</html>\n")


def title_of(text):
    """The first heading of a text of Markdown."""
    return re.search(r"^# (.+)$", text, re.M)[1]
