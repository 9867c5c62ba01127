#!/usr/bin/env python3
"""The files for editors and the shell, and the man page, beside the keywords, the program's commands and its options.

editors.py           compares them; and with the table of options, crates/command_words/src/options.rt, the options of
                     which the texts of help, command_requests and the rest of command_words speak
editors.py --write   writes what is made of that table (gate/options.py): of man/pramc.1 the synopsis and the options,
                     of completions/pramc.bash the commands, their options and their values, the text of all options of
                     help, and the names of those that take a word, for command_requests. Then it compares
"""
import json
import re
import subprocess
import sys
from itertools import zip_longest
from pathlib import Path

import options

TOP = Path(__file__).resolve().parent.parent
SHELL = """compopt() { :; }; . "$1"; COMP_WORDS=("${@:2}"); COMP_CWORD=$(($# - 2))
_pramc; printf '%s\\n' "${COMPREPLY[@]}"
"""


def source(name):
    return (TOP / "crates" / name).read_text()


def keywords():
    return set(re.findall(r'b"([a-z]+)" => Some\(', source("pram_tokens/src/words.rt")))


def symbols():
    """The symbols of more than one byte, and the others."""
    text = source("pram_tokens/src/words.rt")
    wide = {"".join(it) for it in re.findall(r"\(b'(.)', b'(.)'\) => Some", text)}
    return wide, set(re.findall(r" b'(.)' => Some", text))


def rules():
    return set(re.findall(r'b"([a-z]+)" => Some\(Rule::', source("pram_model/src/rule.rt")))


def commands():
    """The options of each command, with the names of their values."""
    return {command.word: {it.word: it.value for it in command.options} for command in options.commands()}


def having():
    """All options, each with the name of its value."""
    return {it for several in commands().values() for it in several.items()}


def subjects():
    """The words that have an explanation: numbers of refusals, kinds of faults, commands and the rest."""
    numbers = re.findall(r'Number::\w+ => "([EP]\d+)"', source("program_texts/src/number.rt"))
    kinds = re.findall(r'Kind::\w+ => "([^"]+)"', source("program_texts/src/outcome_text.rt"))
    return [*numbers, *kinds, *re.findall(r'Subject::\w+ => "([^"]+)"', source("help/src/explained/subject.rt"))]


def alternatives(text):
    """The words of each group of alternatives in a pattern of the editors' files."""
    return {word for group in re.findall(r"\(([a-z|\\]+)\)", text) for word in group.replace("\\", "").split("|")}


def matched(pattern, symbol):
    return re.fullmatch(pattern, symbol) is not None


def vim():
    text = (TOP / "editors/vim/syntax/pram.vim").read_text()
    groups = re.findall(r"^syntax keyword (\w+) (.*)$", text, re.M)
    links = set(re.findall(r"^highlight default link (\w+) ", text, re.M))
    yield "keywords", {word for _, line in groups for word in line.split()}, keywords()
    yield "rules", alternatives(re.search(r"^syntax match pramRule .*$", text, re.M)[0]) - {"rule"}, rules()
    yield "groups", links, set(re.findall(r"^syntax (?:keyword|match) (\w+) ", text, re.M))
    pattern = re.search(r'^syntax match pramSymbol "(.*)"$', text, re.M)[1].replace(r"\|", "|")
    yield from operators(pattern)


def operators(pattern):
    """All symbols but those that only part or hold together."""
    wide, narrow = symbols()
    yield "symbols", {it for it in wide | narrow if matched(pattern, it)}, wide | narrow - set(";[]()")


def textmate():
    grammar = json.loads((TOP / "editors/textmate/pram.tmLanguage.json").read_text())
    patterns = [it["match"] for it in grammar["patterns"]]
    for it in patterns:
        re.compile(it)
    yield "keywords and rules", set().union(*map(alternatives, patterns)), keywords() | rules()
    yield from operators(next(it["match"] for it in grammar["patterns"] if it.get("name") == "keyword.operator.pram"))
    package = json.loads((TOP / "editors/textmate/package.json").read_text())["contributes"]
    named = [package["grammars"][0]["path"], package["languages"][0]["configuration"]]
    for it in named:
        json.loads((TOP / "editors/textmate" / it).read_text())
    yield "scope", {package["grammars"][0]["scopeName"]}, {grammar["scopeName"]}


def manual():
    text = (TOP / "man/pramc.1").read_text()
    yield "lines", *lines_apart(text, options.with_sections(text))
    part = dict(re.findall(r"^\.SH (.+)\n((?:(?!\.SH).*\n)*)", text.replace("\\-", "-"), re.M))
    yield "commands", set(re.findall(r"^\.TP\n\.B (\w+)$", part["COMMANDS"], re.M)), set(commands())
    noted = set(re.findall(r'^\.TP\n\.BI? --([\w-]+)(?: " (\S+)")?$', part["NOTES ON OPTIONS"], re.M))
    yield "notes on options", noted, noted & having()


def lines_apart(there, wanted):
    """The first line in which two texts differ, with its number, as it is there and as `--write` has it."""
    pairs = enumerate(zip_longest(there.splitlines(), wanted.splitlines()), 1)
    number, (old, new) = next(((number, pair) for number, pair in pairs if pair[0] != pair[1]), (0, ("", "")))
    return {f"{number}: {old}"}, {f"{number}: {new} (run {sys.argv[0]} --write)"} if number else {f"{number}: {new}"}


def made():
    """The files that are made of the table as a whole."""
    for name, wanted in options.made_files().items():
        yield name, *lines_apart((TOP / name).read_text(), wanted)


def requests():
    """The options that command_requests says don't go with others."""
    said = set(re.findall(r'is_same\(word, b"([^"]*)"\)', source("command_requests/src/sentence.rt")))
    yield "words of sentence", said, said & {f"--{word}" for word, _ in having()}


def refusing():
    """The options that command_words refuses beside others: each is one of the table, and has a sentence."""
    folder = TOP / "crates/command_words/src"
    refused = {it for file in folder.glob("*.rt") for it in re.findall(r'"(--[\w-]+)"', file.read_text())}
    said = set(re.findall(r'is_same\(word, b"(--[^"]*)"\)', source("command_requests/src/sentence.rt")))
    yield "options that are refused", refused, refused & said & {f"--{word}" for word, _ in having()}


def explained():
    """The options that the text of each command names."""
    text = "".join(source(f"help/src/explained/{it}.rt") for it in ("commands", "grades", "scopes", "workers"))
    texts = dict(re.findall(r'const (\w+): .*?\*b"(.*?)";', text, re.S))
    for name, several in commands().items():
        if several:
            yield f"options of {name}", set(re.findall(r"--(\w[\w-]*)", texts[name.upper()])), set(several)


def completed(*words):
    """What bash completes the last of the words to."""
    call = ["bash", "-c", SHELL, "", TOP / "completions/pramc.bash", *words]
    done = subprocess.run(call, capture_output=True, text=True, cwd=TOP, check=False)
    return set(done.stdout.split()) if not done.stderr else {done.stderr}


def completions():
    text = (TOP / "completions/pramc.bash").read_text()
    yield "lines", *lines_apart(text, options.with_regions(text, subjects()))
    yield "commands", completed("pramc", ""), set(commands()) | {"help", "--help", "--version"}
    for name, several in commands().items():
        yield f"options of {name}", completed("pramc", name, "-"), {f"--{it}" for it in several} | {"--help"}
    for word, value in having():
        if value in options.FILES:
            yield f"files behind {word}", completed("pramc", "run", f"--{word}", "gate/edi"), {"gate/editors.py"}
    yield "subjects", completed("pramc", "explain", "") - {"--help"}, set(subjects())
    yield "maps", completed("pramc", "run", "--map", ""), {"identity", "affine:"}
    yield "rules", completed("pramc", "explore", "--under", ""), rules()
    reading = source("command_words/src/reading.rt").split("fn format_of")[1].split("\n}\n")[0]
    formats = re.findall(r'Some\("(\w+)"\)', reading)
    yield "formats", completed("pramc", "run", "--format", ""), set(formats)


def write():
    """Writes what is made of the table of options."""
    man, shell = TOP / "man/pramc.1", TOP / "completions/pramc.bash"
    man.write_text(options.with_sections(man.read_text()))
    shell.write_text(options.with_regions(shell.read_text(), subjects()))
    for name, text in options.made_files().items():
        (TOP / name).write_text(text)


def main():
    if sys.argv[1:] == ["--write"]:
        write()
    parts = {
        "editors/vim": vim,
        "editors/textmate": textmate,
        "man/pramc.1": manual,
        "completions/pramc.bash": completions,
        "made of the table": made,
        "help": explained,
        "command_requests": requests,
        "command_words": refusing,
    }
    wrong = 0
    for file, part in parts.items():
        for what, found, wanted in part():
            for it in sorted(found ^ wanted):
                wrong += 1
                print(f"{file}: {what}: {'missing' if it in wanted else 'wrong'}: {it}")
            if not wanted:
                wrong += 1
                print(f"{file}: {what}: nothing was found in the crates to compare with")
    sys.exit(1 if wrong else 0)


main()
