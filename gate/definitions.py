#!/usr/bin/env python3
"""Compares docs/BELIEVE.md with the files of definitions, or writes the numbers of lines there (--write).

The page names each file that has to be read: one with a definition that a clause of a public function of the crates in CALLS names, or that
such a definition names in its turn. A file has a row with its number of lines, or it is named in the row of its crate as a tool.
"""
import re
import sys
from pathlib import Path

TOP = Path(__file__).resolve().parent.parent
PAGE = TOP / "docs/BELIEVE.md"
CALLS = ["program_runs", "command_text", "command_json", "pramc"]
ROW = re.compile(r"^\| `([a-z_]+)/specs/(\w+)` \| (\d+) \|", re.M)
USE = re.compile(r"^(?:ghost )?use Rattle\.(?P<file>[a-z_]+\.specs(?:\.[A-Z]\w*)+)(?:\.\{(?P<names>[^}]*)\})?(?: as (?P<alias>\w+))?;?$", re.M)
TOOLS = re.compile(r"^\| `([a-z_]+/specs(?:/\w+)?)` \| ([^|]*) \|", re.M)
BEGIN = re.compile(r"^(?:pub )?(?:abbrev|record|data|unfoldable)(?: pub)? (\S+)")
AMONG = re.compile(r"^  (?:pub )?(\S+) : ")
CLAUSES = re.compile(r"^ *pub fn .*?^ *\{$", re.M | re.S)
WORD = re.compile(r"[^\s(){}\[\],;]+")


def path_of(file):
    crate, name = file.split(".specs.")
    return TOP / "crates" / crate / "specs" / f"{name.replace('.', '/')}.antt"


def imports(text):
    """What stands for which definition in a file: names, and names of files."""
    names, files = {}, {}
    for use in USE.finditer(text):
        if use["alias"] and not use["names"]:
            files[use["alias"]] = use["file"]
        for name in filter(None, map(str.strip, (use["names"] or "").split(","))):
            given, _, known = name.partition(" as ")
            names[known or given] = (use["file"], given)
    return names, files


def named(body, names, files):
    """The definitions that a text names."""
    for word in WORD.findall(body):
        head, _, rest = word.partition(".")
        if head in files and rest:
            yield files[head], rest.split(".")[0]
        elif head in names:
            yield names[head]


def definitions(file):
    """The definitions of a file, each with those that it names."""
    text = path_of(file).read_text()
    names, files = imports(text)
    bodies, name, mutual = {}, None, False
    for line in text.splitlines():
        begin = BEGIN.match(line) or mutual and AMONG.match(line)
        mutual = mutual if not BEGIN.match(line) else "mutual" in line
        name = begin[1] if begin else name
        if name and not line.lstrip().startswith("--"):
            bodies[name] = bodies.get(name, "") + line + "\n"
    names.update({it: (file, it) for it in bodies})
    return {it: set(named(body, names, files)) - {(file, it)} for it, body in bodies.items()}


def promised():
    """The definitions that the clauses of public functions name."""
    for crate in CALLS:
        for file in (TOP / "crates" / crate / "src").rglob("*.rt"):
            text = file.read_text()
            names, files = imports(text)
            for clauses in CLAUSES.findall(text):
                yield from named(clauses, names, files)


def to_read():
    """The files with a definition that these clauses lead to."""
    read, found, work = {}, set(), list(promised())
    while work:
        file, name = work.pop()
        if path_of(file).exists() and (file, name) not in found:
            found.add((file, name))
            read.setdefault(file, definitions(file))
            work += read[file].get(name, ())
    return set(read)


def lines(file):
    """The number of lines of a file of definitions, and 0 where there is none."""
    return len(path_of(file).read_text().splitlines()) if path_of(file).exists() else 0


def main():
    text = PAGE.read_text()
    rows = {f"{crate}.specs.{name}": int(count) for crate, name, count in ROW.findall(text)}
    if sys.argv[1:] == ["--write"]:
        new = ROW.sub(lambda it: f"| `{it[1]}/specs/{it[2]}` | {lines(f'{it[1]}.specs.{it[2]}')} |", text)
        PAGE.write_text(re.sub(r"\d+ lines in all", f"{sum(map(lines, rows))} lines in all", new))
        return
    tools = {f"{folder.replace('/', '.')}.{name}" for folder, names in TOOLS.findall(text) for name in re.findall(r"`(\w+)`", names)}
    wrong = [f"run {sys.argv[0]} --write for {it}" for it, count in rows.items() if lines(it) != count]
    wrong += [f"{it} is not named" for it in sorted(to_read() - set(rows) - tools)]
    wrong += [f"there is no {it}" for it in sorted({*rows, *tools}) if not path_of(it).exists()]
    if f"{sum(rows.values())} lines in all" not in text:
        wrong.append("the sum is another")
    sys.exit("\n".join(f"docs/BELIEVE.md: {it}" for it in wrong) or 0)


if __name__ == "__main__":
    main()


