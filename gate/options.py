"""The program's commands and their options, by the tables of crates/command_words, and what files make of them."""
import re
import sys
import textwrap
from dataclasses import dataclass
from pathlib import Path

TOP = Path(__file__).resolve().parent.parent
WORDS = TOP / "crates/command_words/src"
OPTION = re.compile(
    r"CommandOption \{\s*name: (\w+),\s*follows: Follows::\w+"
    r'(?:\(\s*"([^"]*)"(?:,\s*"([^"]*)")?,?\s*\))?,\s*help: "([^"]*)",'
)
COMMAND = re.compile(r'Subcommand \{\s*name: "(\w+)".*?places: (\w+),\s*groups: &\[(.*?)\],', re.S)
# What the values of options are completed to, where that is no file; of other values nothing is.
COMPLETED = {"MAP": "identity affine:", "RULE": "erew crew common priority sum", "FORMAT": "text json csv gnu"}
FILES = ("FILE", "LISTING", "PRE", "POST", "OUT")
# The options that the parser of words has by itself, for the man page.
OF_PARSER = r""".TP
.BR \-V ", " \-\-version
Writes the version of the program, with exit status 0.
.TP
.BR \-h ", " \-\-help
Writes what there is to say of a command to standard error, with exit status 2.
"""
# What words stand for besides options of their own names, for command_requests.
OTHER_WORDS = (
    ("ToldWorkers", "--workers", "The workers that `cost` tells of, of which there may be any number."),
    ("Subject", "explain", "What `explain` is to say something of."),
)
MADE = "Made of the table of options by `gate/editors.py --write`."
BELOW, ABOVE = "# made by gate/editors.py --write", "# end"


@dataclass(frozen=True)
class Option:
    """An option as a group has it: its word, what stands for the word behind it, which word that is where it's left
    out, and what help says."""
    word: str
    value: str
    default: str
    help: str


@dataclass(frozen=True)
class Command:
    """A command: its word, what it is over, as (word, is required), and its options in their order."""
    word: str
    places: tuple
    options: tuple


def constants(text):
    """The constants that are strings."""
    return dict(re.findall(r'const (\w+): &str =\s*"([^"]*)";', text))


def grouped(text):
    """The options of each group."""
    words, tables = constants(text), {}
    if len(OPTION.findall(text)) != text.count("CommandOption {") - 1:
        raise SystemExit("the table of options is written otherwise than gate/options.py reads it")
    for name, body in re.findall(r"const (\w+): &\[CommandOption\] = &\[(.*?)^\}?\];", text, re.M | re.S):
        tables[name] = [Option(words[word], *rest) for word, *rest in OPTION.findall(body)]
    return {group: tables[name] for group, name in re.findall(r"Group::(\w+) => (\w+),", text)}


def placed(text, words):
    """What commands are over, by the names of these tables: of a listing its own word, as of no program."""
    found = {}
    for name, body in re.findall(r"const (\w+): &\[Place\] = &\[(.*?)\];", text, re.S):
        places = re.findall(r"name: (\w+),\s*is_required: (\w+),\s*help: (.*)", body)
        named = [("LISTING" if "listing" in said else words[it], need) for it, need, said in places]
        found[name] = tuple((it, need == "true") for it, need in named)
    return found


def commands():
    """All commands, in their order; what explains a refusal is last of the options of each."""
    options = (WORDS / "names.rt").read_text() + (WORDS / "options.rt").read_text()
    text = (WORDS / "subcommands.rt").read_text()
    groups, places = grouped(options), placed(text, constants(options))
    found = []
    for word, over, used in COMMAND.findall(text):
        names = sorted(re.findall(r"::(\w+)", used), key=lambda it: it == "Explain")
        found.append(Command(word, places[over], tuple(it for name in names for it in groups[name])))
    return found


def escaped(word):
    """A word as a man page has it."""
    return word.replace("\\", "\\e").replace("-", "\\-")


def synopsis():
    """The synopsis of the man page."""
    lines = []
    for command in commands():
        lines.append(f'.SY "pramc {command.word}"')
        lines += [f".I {word}" if need else f".RI [ {word} ]" for word, need in command.places]
        lines += [f".OP {escaped('--' + it.word)} {it.value}".rstrip() for it in command.options]
        lines.append(".YS")
    return "".join(f"{it}\n" for it in lines)


def takers(several, everywhere):
    """Which commands take an option, in words."""
    missing = [it for it in everywhere if it not in several]
    return f"all but {joined(missing)}" if len(missing) < 4 else ", ".join(several)


def entries():
    """Of each option, in their order, what helps say of it: of each of several sayings the commands that have it."""
    found = {}
    for command in commands():
        for it in command.options:
            found.setdefault(it.word, {}).setdefault(it, []).append(command.word)
    # what all commands have comes last
    last = [it for it in ("size", "format", "explain") if it in found]
    return {word: found[word] for word in [*(it for it in found if it not in last), *last]}


def options_section():
    """The options of the man page: what helps say of each, what it is where it's left out, and who takes it."""
    everywhere, lines = [it.word for it in commands()], []
    for word, sayings in entries().items():
        value = next(iter(sayings)).value
        name = escaped(f"--{word}")
        lines += [".TP", f'.BI {name} " {value}"' if value else f".B {name}"]
        for number, (it, several) in enumerate(sayings.items()):
            default = f"; {it.default} if it is not given" if it.default else ""
            lines += [".br"] if number else []
            lines.append(f"{escaped(it.help)}{default} ({takers(several, everywhere)}).")
    return "".join(f"{it}\n" for it in lines) + OF_PARSER


def completed_values():
    """What the words behind options are completed to, for bash."""
    values = {f"--{it.word}": it.value for command in commands() for it in command.options if it.value}
    lines = [f"{' | '.join(it for it, value in values.items() if value in FILES)}) ;;"]
    for name, words in COMPLETED.items():
        lines.append(f'{" | ".join(it for it, value in values.items() if value == name)}) words="{words}" ;;')
    others = [it for it, value in values.items() if value not in {*FILES, *COMPLETED}]
    return [*lines, f"{' | '.join(others)}) return ;;"]


def completed_commands(subjects):
    """What the words of each command are completed to, for bash."""
    lines = []
    for it in commands():
        words = [f"--{option.word}" for option in it.options]
        lines.append(f'{it.word}) words="{" ".join([*(subjects if it.word == "explain" else words), "--help"])}" ;;')
    return [*lines, f'help) words="{" ".join(it.word for it in commands())}" ;;']


def region(begin, lines, depth):
    """Lines between marks, so far from the margin."""
    return "".join(f"{' ' * depth}{it}\n" for it in [f"{BELOW}: {begin}", *lines, ABOVE])


def with_regions(text, subjects):
    """The completions for bash, with what is made of the tables."""
    first = [f'words="{" ".join([*(it.word for it in commands()), "help", "--help", "--version"])}"']
    made = {"commands": first, "values": completed_values(), "options": completed_commands(subjects)}
    pattern = re.compile(rf"^( *){re.escape(BELOW)}: (\w+)\n.*?^ *{ABOVE}\n", re.M | re.S)
    return pattern.sub(lambda it: region(it[2], made[it[2]], len(it[1])), text)


def with_sections(text):
    """The man page, with what is made of the tables."""
    made = '.\\" Made by gate/editors.py --write.\n'
    sections = {"SYNOPSIS": synopsis(), "OPTIONS": options_section()}
    pattern = re.compile(r"^\.SH (SYNOPSIS|OPTIONS)\n.*?(?=^\.SH )", re.M | re.S)
    return pattern.sub(lambda it: f".SH {it[1]}\n{made}{sections[it[1]]}", text)


def taking():
    """The options that take a word other than a file: what stands for each in command_requests, and how it stands on a
    command line."""
    words = [word for word, sayings in entries().items() if next(iter(sayings)).value not in ("", *FILES)]
    return [("".join(it.capitalize() for it in word.split("-")), f"--{word}") for word in words]


def given_code():
    """`Given` of command_requests: the options that take a word, and their names."""
    several = taking()
    lines = [f"//! The options that take a word. {MADE}", "", "ghost use Rattle.std.specs.Prelude.{◌≡◌};"]
    lines += ["ghost use Rattle.command_requests.specs.Names as spec;", ""]
    lines += ["/// What a word of the command line is given for: an option, or the subject of `explain`."]
    lines += ["#[derive(Clone, Copy, Debug, Drop, PartialEq, Eq)]", "pub enum Given {"]
    lines += [f"    {it}," for it, _ in several]
    lines += [line for it, _, said in OTHER_WORDS for line in (f"    /// {said}", f"    {it},")]
    lines += ["}", "", "/// Those for which words of their own names are given."]
    given = [*(it for it, _ in several), "Subject"]
    lines += [f"pub(crate) const NAMED: [Given; {len(given)}] = [", *(f"    Given::{it}," for it in given), "];", ""]
    lines += ["impl Given {", "    /// How it stands on a command line.", "    pub fn name(self) -> &'static [u8]"]
    lines += ["        ensures { result.now ≡ spec.name self }", "    {", "        match self {"]
    lines += [f'            Given::{it} => b"{word}",' for it, word, *_ in [*several, *OTHER_WORDS]]
    return "".join(f"{it}\n" for it in [*lines, "        }", "    }", "}"])


def names_definition():
    """The definition of these names."""
    given = "Rattle.command_requests.specs.declared.given.Given"
    lines = [f"-- How an option that takes a word stands on a command line. {MADE}", "use Rattle.std.specs.Prelude.{ℕ, List, codes}"]
    lines += [f"use {given}.{{Given}}", f"use {given}.TheVariants as given", "", "abbrev pub name : Given → List ℕ"]
    lines += [f'name given.{it} = codes "{word}"' for it, word, *_ in [*taking(), *OTHER_WORDS]]
    return "".join(f"{it}\n" for it in lines)


def joined(words):
    """Words as one says them."""
    return " and ".join(it for it in [", ".join(words[:-1]), words[-1]] if it)


def said_of(option):
    """What the text of all options says of one: its name, and its help behind that."""
    name = f"--{option.word} {option.value}".rstrip()
    said = option.help[0].lower() + option.help[1:] + (f", else {option.default}" if option.default else "")
    return textwrap.wrap(f"{name:10} {said}", 80, subsequent_indent="    ")


def overview():
    """The text of all options, by the commands that take them: first what most of them take.

    It goes out in one write, of 4,096 bytes at most, as all that is explained does: who reads its first lines alone gets no E17.
    """
    everywhere, several = [it.word for it in commands()], {}
    for sayings in entries().values():
        for it, takers_of_it in sayings.items():
            several.setdefault(tuple(takers_of_it), []).append(it)
    lines = ["The options, and which commands take them.", "", "Of all:", f"{'--help':10} says what there is to type"]
    for words, options in sorted(several.items(), key=lambda it: -len(it[0])):
        missing = [it for it in everywhere if it not in words]
        head = min(f"All but {joined(missing)}:", f"Of {joined(words)}:", key=len)
        lines += ["", *textwrap.wrap(head, 80), *(line for it in options for line in said_of(it))]
    lines += ["", "Of --input, --memory, --random and --draw one is given; other cells are 0."]
    lines += ["A FILE named - is standard input, once in a call.", ""]
    return [*lines, "`pramc --version` writes the version. `pramc explain cost` says what cost takes."]


def overview_code():
    """The constant of help that is this text."""
    text = "".join(f"{it}\n" for it in overview())
    if len(text.encode()) > 4096:
        sys.exit(f"the text of all options has {len(text.encode())} bytes, and one write takes 4096")
    head = f"//! What is said of all options. {MADE}\n\n"
    return f'{head}pub(crate) const OPTIONS: [u8; {len(text.encode())}] = *b"{text}";\n'


def made_files():
    """The files that are made of the tables as a whole."""
    return {
        "crates/command_requests/src/given.rt": given_code(),
        "crates/command_requests/specs/Names.antt": names_definition(),
        "crates/help/src/explained/options.rt": overview_code(),
    }
