#!/usr/bin/env python3
"""The tables of docs/WORKING.md: where one goes who adds one more of a kind.

walks.py           compares the tables with the files, in seconds, and compiles nothing
walks.py --write   writes them: the compiler says which matches lack an arm where an enum has one more (gate/arms.py),
                   without a proof. It is called once for each match that isn't plain (one, today) and once more, for
                   half a minute of a processor each: 6 and 10 minutes for two calls beside a full proof
walks.py --rest    writes all but what the compiler says, in seconds

What the compiler said stands in the column Matches, in which the page keeps it. All else is found by patterns: the
other code, the definitions and the proofs that name the exemplar, and what else does. The comparison knows by itself
of matches whose every pattern begins with an arm of the enum: their files have to stand in the column. Of its other
files it asks whether they are there, have a match and name arms of the enum. What names each arm in a match of another
kind names the exemplar: its file has to stand in the table, if as other code.
"""
import re
import sys
from dataclasses import dataclass, field
from pathlib import Path

from arms import Enum, all_alike, lacking
from crates import sections

TOP = Path(__file__).resolve().parent.parent
CRATES = TOP / "crates"
PAGE = TOP / "docs/WORKING.md"
TABLE = re.compile(r"(<!-- (\w+), by gate/walks.py -->\n)(.*?)(<!-- end -->\n)", re.S)
HEAD = ["", "| Crate | Matches | Other code | Definitions | Proofs |", "|---|---|---|---|---|"]
FOUND = re.compile(r"`([\w/]+)`(?: \(([^)]*)\))?")
PARTS = {"src": "rt", "specs": "antt", "proofs": "antt"}
# Not asked: the crates of tests, and the program's own crate, which no other can use.
NOT_ASKED = {"tests", "command_main"}
# What isn't in a crate's three folders.
PLACES = {
    "C runtime": ("crates/mpi_export/runtime/*.[ch]",),
    "oracle": ("gate/oracle/*.py",),
    "editors": ("editors/vim/syntax/*", "editors/textmate/*.tmLanguage.json"),
    "shell, manual": ("completions/*", "man/*"),
    "documents": ("README.md", "docs/LANGUAGE.md", "docs/MACHINE.md", "docs/REFUSALS.md"),
}


@dataclass(frozen=True)
class Walk:
    """What is added: the enums that get an arm more, what crates call the exemplar, what PLACES call it, and the
    sections of crates.txt in which that stands for something else."""
    enums: tuple
    called: str
    places: dict = field(default_factory=dict)
    apart: tuple = ()


SUBJECT = Enum("Subject", "help", "explained/subject")
WALKS = {
    "Remainder": Walk(
        (
            Enum("Binary", "pram_tokens", "token"),
            Enum("Arithmetic", "superstep_instructions", "instr"),
            Enum("Operator", "sized_texts", "operation"),
        ),
        r"\b(?:Remainder|remainder)\b",
        {"C runtime": r"op_umod|OPERATION\(mod", "oracle": r'"mod"', "editors": r"\bmod\b", "documents": r"\bmod\b"},
    ),
    "Priority": Walk(
        (Enum("Rule", "pram_model", "rule"),),
        r"\bPriority\b",
        {
            "C runtime": "rule_priority",
            "oracle": '"priority"',
            "editors": r"\bpriority\b",
            "shell, manual": r"\bpriority\b",
            "documents": r"\bpriority\b",
        },
    ),
    "Flip": Walk(
        (Enum("Instr", "superstep_instructions", "instr"),),
        r"\bFlip\b",
        {"C runtime": r"op_flip|void flip\(", "oracle": r'"flip"', "documents": r"`flip`"},
    ),
    "Affine": Walk(
        (Enum("MapChoice", "run_options", "map_choice"),),
        r"\bAffine\b",
        {"C runtime": "affine", "oracle": "affine", "shell, manual": "affine", "documents": "affine"},
    ),
    "Plan": Walk(
        (
            Enum("Request", "command_requests", "request"),
            Enum("Settled", "command_facts", "found"),
            SUBJECT,
        ),
        r"\b(?:Plan|Planned|PLAN|\w+_plan|plan_\w+)\b|\"plan\"|\bplan {2,}\w",
        {"shell, manual": r"^\.B plan$|\bplan\)", "documents": "pramc plan FILE"},
        ("machine",),
    ),
    "OutOfReserve": Walk(
        (
            Enum("Refusal", "program_texts", "from_text"),
            Enum("RunRefusal", "worker_exchange", "refusal"),
            Enum("Number", "program_texts", "number"),
        ),
        r"\bOutOfReserve\b",
        {"shell, manual": r"\bE18\b", "documents": r"\bE18\b"},
        ("machine", "oracles"),
    ),
}


def names_it(pattern, file):
    """Whether a file calls the exemplar so."""
    return re.search(pattern, file.read_text(), re.M) is not None


def naming(crate, part, pattern):
    """The files of a part of a crate that name an exemplar, by their names in it."""
    folder = CRATES / crate / part
    files = sorted(folder.rglob(f"*.{PARTS[part]}"))
    return [str(it.relative_to(folder).with_suffix("")) for it in files if names_it(pattern, it)]


def shown(names):
    return ", ".join(f"`{it}`" for it in names)


def matching(walk, asked, crate):
    """The files of a crate with a match that lacks the arm, each with its enums where the walk has several."""
    files = sorted((name, enums) for (of, name), enums in asked.items() if of == crate)
    is_told = len(walk.enums) > 1
    return ", ".join(f"`{name}` ({shown(enums)})" if is_told else f"`{name}`" for name, enums in files)


def row(cells):
    return f"| {' | '.join(cells)} |".replace("|  ", "| ")


def crate_row(walk, asked, crate, is_apart):
    """What a crate has to do with a walk, if it has: of a section apart what is matched alone."""
    code, *rest = [[] if is_apart else naming(crate, part, walk.called) for part in PARTS]
    cells = [matching(walk, asked, crate), shown(it for it in code if (crate, it) not in asked), *map(shown, rest)]
    return [row([f"`{crate}`", *cells])] if any(cells) else []


def place_row(label, pattern):
    """What else names the exemplar, in one of the places."""
    files = sorted(it for pieces in PLACES[label] for it in TOP.glob(pieces) if names_it(pattern, it))
    return [row([label, "", shown(it.name for it in files), "", ""])] if files else []


def table(walk, asked):
    """The table of a walk: a row for each crate, in the order of crates.txt, and behind them one for each place."""
    rows = list(HEAD)
    for section, (_, crates) in sections()[0].items():
        for crate in crates if section != "tests" else []:
            rows += crate_row(walk, asked, crate, section in walk.apart)
    for label, pattern in walk.places.items():
        rows += place_row(label, pattern)
    return "\n".join(rows) + "\n\n"


def kept(walk, text):
    """What a table has in its column Matches: of each crate and file the enums."""
    asked = {}
    for line in text.splitlines():
        cells = [it.strip() for it in line.strip("|").split("|")]
        crate = re.fullmatch(r"`(\w+)`", cells[0])
        for name, enums in FOUND.findall(cells[1]) if crate else []:
            asked[crate[1], name] = re.findall(r"`(\w+)`", enums) or [walk.enums[0].name]
    return asked


def asked_crates():
    """The crates of which the compiler is asked."""
    listed = [(section, it) for section, (_, several) in sections()[0].items() for it in several]
    return [crate for section, crate in listed if not {section, crate} & NOT_ASKED]


def all_enums():
    return list(dict.fromkeys(it for walk in WALKS.values() for it in walk.enums))


def told():
    """What the compiler says: of each walk, of each crate and file with a match that lacks an arm, the enums."""
    found = lacking(all_enums(), asked_crates())
    asked = {word: {} for word in WALKS}
    for word, walk in WALKS.items():
        for enum in walk.enums:
            for place in found[enum]:
                asked[word].setdefault(place, []).append(enum.name)
    return asked


def gone(word, asked):
    """What stands in the column Matches of a table, and has no such match any more."""
    for (crate, name), enums in asked.items():
        file = CRATES / crate / "src" / f"{name}.rt"
        text = file.read_text() if file.exists() else ""
        if not all(re.search(rf"\b{it}::", text) for it in enums) or not re.search(r"\bmatch\b", text):
            yield f"{word}: {crate}/src/{name}.rt has no match over {' and '.join(enums)}"


def new(asked):
    """The files with a match over arms of an enum alone that a table doesn't have in its column Matches."""
    found = all_alike(CRATES, all_enums(), asked_crates())
    for word, walk in WALKS.items():
        for enum in walk.enums:
            for crate, name in sorted(found[enum]):
                if enum.name not in asked[word].get((crate, name), []):
                    yield f"{word}: {crate}/src/{name}.rt has a match over {enum.name}: run {sys.argv[0]} --write"


def namesakes():
    """The enums of tables that have the name of another one, whose matches can't be told from theirs."""
    declared = "".join(file.read_text() for crate in asked_crates() for file in (CRATES / crate / "src").rglob("*.rt"))
    for it in all_enums():
        if len(re.findall(rf"^(?:pub(?:\(crate\))? )?enum {it.name}\b", declared, re.M)) != 1:
            yield f"the enum {it.name} of {it.crate} isn't the one enum of its name"


def compared(text, wanted):
    """What to do where the page isn't as it has to be."""
    if text != wanted:
        lines = text.splitlines()
        missing = next((it for it in wanted.splitlines() if it not in lines), "none: a line is too many")
        yield f"run {sys.argv[0]} --rest, or --write where a match is new; the first line that is missing is {missing}"


def main():
    asked = told() if sys.argv[1:] == ["--write"] else None
    text = PAGE.read_text()
    tables = {word: body for _, word, body, _ in TABLE.findall(text)}
    wrong = [f"there is no table of {it}" for it in WALKS if it not in tables]
    asked = asked or {word: kept(walk, tables.get(word, "")) for word, walk in WALKS.items()}
    wanted = TABLE.sub(lambda it: it[1] + table(WALKS[it[2]], asked[it[2]]) + it[4], text)
    if sys.argv[1:] in (["--write"], ["--rest"]):
        PAGE.write_text(wanted)
        text = wanted
    wrong += [it for word in WALKS for it in gone(word, asked[word])]
    wrong += [*namesakes(), *new(asked), *compared(text, wanted)]
    sys.exit("\n".join(f"docs/WORKING.md: {it}" for it in wrong) or 0)


if __name__ == "__main__":
    main()
