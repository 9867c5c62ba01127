#!/usr/bin/env python3
"""Writes the documents and the examples as a folder of plain HTML, which needs no server and fetches nothing.

site.py TO [PROGRAM [CONVERTER]]: the folder TO, which is made anew if it is one that this made; bin/pramc; pandoc or python3-markdown
(`markdown`), the first that is here. All links between its pages are checked. Where neither converter is here, the status is 77.
"""
import sys
from pathlib import Path

from site_pages import converters
from site_whole import TOP, write, wrong

SKIPPED = 77


def main():
    folder = Path(sys.argv[1])
    program = Path(sys.argv[2] if sys.argv[2:] else TOP / "bin/pramc").resolve()
    found = converters()
    if not found:
        print("there is neither pandoc nor python3-markdown, by which the documents are converted (both are packages of Debian)")
        sys.exit(SKIPPED)
    name = sys.argv[3] if sys.argv[3:] else next(iter(found))
    write(folder, program, found[name])
    lost = wrong(folder)
    for it in lost:
        print(it)
    print(f"{folder}: {sum(1 for _ in folder.rglob('*.html'))} pages by {name}, {len(lost)} links wrong")
    sys.exit(1 if lost else 0)


if __name__ == "__main__":
    main()
