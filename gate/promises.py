#!/usr/bin/env python3
"""The promises of the crates, as a page.

promises.py           compares docs/PROMISES.md with the comments that stand at clauses
promises.py --write   writes there what is made of them

A promise is a `//` comment directly above a clause of what others can call: an `ensures` of a function that
`lib.rt` or a public module of it exports, or of a method of such a type or trait, or a law of such a trait; or
a sentence above what an exported type gives for a trait's relation. What is `pub` and not exported is refused. A
promise is a row: its sentence, its call, and definitions that its clause names. What stands before the first
section of crates.txt and from REST on is written by hand.
"""
import re
import sys
from itertools import groupby
from typing import NamedTuple

from crates import TOP, first_sentence, sections, unlike
from definitions import imports, named, path_of

PAGE = TOP / "docs/PROMISES.md"
REST = "## What the promises leave out\n"
MOST_WORDS = 30
MOST_NAMES = 4
TABLE = "| Promise | Call | Definitions |\n|---|---|---|"
EXPORT = re.compile(r"^pub use (?:crate::)?(\w+(?:::\w+)*)::(?:(\w+)|\{([^}]*)\});", re.M)
MODULE = re.compile(r"^pub mod (\w+);", re.M)
ITEM = re.compile(r"^pub (?:unsafe )?(?:fn|struct|enum|trait) (\w+)", re.M)
OWNER = re.compile(
    r"(?P<head>(?:pub(?:\(\w+\))? )?trait|(?:unsafe )?impl)(?:<[^>]*>)? (?P<of_trait>.* for )?(?P<name>\w+)"
)
FUNCTION = re.compile(r" *(?P<shown>pub(?:\(\w+\))? )?(?:final |unsafe )*fn (?P<name>\w+)")
CLAUSE = re.compile(r" *ensures (?:(?P<name>\w+) )?\{")
LAW = re.compile(r" +(?:ghost|law) (?P<name>\w+)(?:: | = )")
COMMENT = re.compile(r" *//(?!/) ?(.*)")


class Promise(NamedTuple):
    """A comment at a clause: its place and words, its call and clause, whether others can call it, what it names."""

    place: str
    sentence: str
    call: str
    clause: str
    is_law: bool
    shown: bool
    names: list


class Source(NamedTuple):
    """A file of a crate: its lines, what its names stand for, and the items of the crate that others can name."""

    crate: str
    module: str
    lines: list
    known: tuple
    exports: dict


def exported(folder, module):
    """What a file of a crate exports: its own items, and those of other files, by module and name."""
    file = folder / f"{module}.rt"
    text = file.read_text() if file.exists() else ""
    yield from ((module, it) for it in ITEM.findall(text))
    for other, name, names in EXPORT.findall(text):
        if (folder / f"{other.replace('::', '/')}.rt").exists():
            yield from ((other, it) for it in map(str.strip, (name or names).split(",")) if it)


def exports(folder):
    """The items of a crate that others can name, by module and name, each with what stands before its name."""
    found = dict.fromkeys(exported(folder, "lib"), "")
    lib = folder / "lib.rt"
    for module in MODULE.findall(lib.read_text() if lib.exists() else ""):
        for it in exported(folder, module):
            found.setdefault(it, f"{module}::")
    return found


def sources(crate):
    """The files of a crate: those of its public modules last."""
    folder = TOP / "crates" / crate / "src"
    shown = exports(folder)
    last = {module for (module, _), before in shown.items() if before}
    for file in sorted(folder.rglob("*.rt"), key=lambda it: (it.stem in last, it)):
        text = file.read_text()
        module = "::".join(file.relative_to(folder).with_suffix("").parts)
        yield Source(crate, module, text.splitlines(), imports(re.sub("^ +", "", text, flags=re.M)), shown)


def comment_above(lines, at):
    """The comment directly above a line, if there is one."""
    said = []
    while at and (line := COMMENT.fullmatch(lines[at - 1])):
        said.insert(0, line[1].strip())
        at -= 1
    return " ".join(said)


def clause_text(lines, at):
    """A clause as it is written: up to the brace that ends it."""
    text, depth = "", 0
    for line in lines[at:]:
        text += line + "\n"
        depth += line.count("{") - line.count("}")
        if not depth:
            break
    return text


def call_of(source, owner, function):
    """What a clause is of, as a caller names it, and whether others can call it."""
    name = function["name"] if function else ""
    if not owner:
        before = source.exports.get((source.module, name))
        return f"{before or ''}{name}", before is not None and function["shown"] == "pub "
    found = [before for (_, it), before in source.exports.items() if it == owner["name"]]
    is_trait = owner["head"].endswith("trait")
    shown = owner["head"] == "pub trait" if is_trait else bool(owner["of_trait"]) or function["shown"] == "pub "
    call = "::".join(filter(None, [owner["name"], name]))
    return f"{found[0] if found else ''}{call}", bool(found) and shown


def cited(source, text):
    """The definitions of this project's crates that a clause names: relations first, and not too many to read."""
    names = dict.fromkeys(it for it in named(text, *source.known) if path_of(it[0]).exists())
    return sorted(names, key=lambda it: not it[1][0].isupper())[:MOST_NAMES]


def is_own(owner, function):
    """Whether a function is its crate's own, so that what stands at its clauses is no promise."""
    of_trait = owner and (owner["of_trait"] or owner["head"].endswith("trait"))
    return function and not of_trait and function["shown"] != "pub "


def promises_of(source):
    """The promises that stand in a file."""
    owner = function = None
    for at, line in enumerate(source.lines):
        if head := OWNER.match(line):
            owner, function = head, None
        elif line == "}":
            owner = function = None
        elif begin := FUNCTION.match(line):
            function = begin
        is_law = owner and (owner["of_trait"] or owner["head"].endswith("trait")) and LAW.match(line)
        given = is_law and owner["of_trait"]
        clause, sentence = is_law or CLAUSE.match(line), comment_above(source.lines, at)
        if clause and sentence and (is_law or not is_own(owner, function)):
            call, shown = call_of(source, owner, None if is_law else function)
            place = f"crates/{source.crate}/src/{source.module.replace('::', '/')}.rt:{at + 1}"
            names = cited(source, clause_text(source.lines, at))
            if given and not (shown and sentence.endswith(".")):
                continue
            yield Promise(place, sentence, call, clause["name"], bool(is_law), shown, names)


def promises_in(crate):
    """The promises of a crate, those of its public modules last."""
    return [it for source in sources(crate) for it in promises_of(source)]


def mistakes(promise):
    """What is wrong with a promise."""
    words = len(promise.sentence.split())
    if not promise.shown:
        yield f"{promise.place}: no other crate can call `{promise.call}`, of which this is promised"
    if words > MOST_WORDS:
        yield f"{promise.place}: the promise has {words} words"
    if not promise.sentence.endswith("."):
        yield f"{promise.place}: the promise has no full stop at its end"


def call_text(call, promises):
    """A call, with those of its clauses that have a name."""
    return " ".join([f"`{call}`", ", ".join(f"`{it.clause}`" for it in promises if it.clause)]).strip()


def names_text(names):
    """Definitions by their names."""
    return ", ".join(f"`{name}`" for name in dict.fromkeys(name for _, name in names))


def row(promises):
    """The row of promises that stand one behind the other and say the same."""
    calls = "; ".join(call_text(call, list(same)) for call, same in groupby(promises, lambda it: it.call))
    names = names_text(list(dict.fromkeys(name for it in promises for name in it.names))[:MOST_NAMES])
    sentence = promises[0].sentence.replace("|", "\\|")
    return f"| {sentence} | {calls} | {names} |".replace("|  |", "| |")


def crate_text(crate, promises):
    """The heading and the table of a crate."""
    shown = [it for it in promises if it.shown]
    rows = [row(list(same)) for _, same in groupby(shown, lambda it: it.sentence)]
    return "\n".join([f"### {crate}\n", f"{first_sentence(crate)}\n", TABLE, *rows, ""])


def made(found, promises):
    """The part of the page that is made of the promises of crates."""
    parts = []
    for name, (purpose, crates) in found.items():
        tables = [crate_text(it, promises[it]) for it in crates if promises[it]]
        parts += [f"## {name}\n\n{purpose[0].upper()}{purpose[1:]}.\n", *tables] if tables else []
    return "\n".join(parts) + "\n"


def page(found, promises):
    """The page, with what is written by hand as it stands there."""
    text = PAGE.read_text()
    begin, end = text.index(f"## {next(iter(found))}\n"), text.index(REST)
    return text[:begin] + made(found, promises) + text[end:]


def main():
    found = sections()[0]
    promises = {it: promises_in(it) for _, crates in found.values() for it in crates}
    every = [it for some in promises.values() for it in some]
    wrong = [it for promise in every for it in mistakes(promise)]
    wanted = page(found, promises)
    if sys.argv[1:] == ["--write"]:
        PAGE.write_text(wanted)
    else:
        wrong += filter(None, [unlike(PAGE, wanted)])
    print(*wrong or [f"promises: docs/PROMISES.md has the {len(every)} promises that stand at clauses"], sep="\n")
    sys.exit(bool(wrong))


if __name__ == "__main__":
    main()
