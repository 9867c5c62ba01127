"""The page of an example: its text, what it is, its run, its costs at several sizes, and its pictures."""
import html
import json
import re
import subprocess
from dataclasses import dataclass
from pathlib import Path

from gallery import EXAMPLES, INPUTS, SIZE, cases, code, foot, sizes

SAID = [("Algorithm", "Algorithm"), ("Source", "Source"), ("Rule", "Rule, and why"), ("T", "T, the parallel steps"),
        ("W", "W, the operations"), ("Conflict", "A change that makes a conflict"), ("Always", "On every input of a scope")]
COUNTS = ["time", "work", "width", "reads", "writes", "exchanges_at_most"]
REFUSED = 2


@dataclass
class Example:
    name: str
    text: str
    about: str
    program: Path

    def call(self, command, *words, file=None):
        """What a command writes of the example."""
        where = file or EXAMPLES / f"{self.name}.pram"
        done = subprocess.run([self.program, command, where, *map(str, words)], capture_output=True, text=True, timeout=120)
        if done.returncode >= REFUSED and done.returncode != 3:
            raise SystemExit(f"{self.name}: {command} is refused: {done.stderr}")
        return done.stdout

    @property
    def input(self):
        return ["--input", EXAMPLES / f"{self.name}.in"]


def files(example):
    """The pictures and the page of a run, by the names of their files."""
    name, given = example.name, example.input
    yield f"{name}_flow.svg", example.call("steps", *given, "--flow")
    yield f"{name}_steps.svg", example.call("steps", *given, "--svg")
    yield f"{name}_steps.html", example.call("steps", *given, "--html")
    if swept := sweep(example):
        yield f"{name}_sweep.svg", example.call("cost", *swept, "--svg")


def sweep(example):
    """The words of a sweep over the three sizes of an example that has no size but n, each with its own input."""
    if not foot(example.text) or [it for it, _ in SIZE.findall(example.text)] != ["n"]:
        return None
    several = ",".join(map(str, sizes(example.text)["n"]))
    return ["--sweep", f"n={several}", "--input", INPUTS / f"{example.name}_{{n}}.in"]


def picture(file, about):
    return f'<div class="wide"><a href="{file}"><img src="{file}" alt="{html.escape(about)}"></a></div>\n'


def pre(text):
    return f"<pre>{html.escape(text)}</pre>\n"


def facts(example):
    """What an example says of itself at its end."""
    found = foot(example.text)
    if not found:
        return f"<p>{example.about}</p>\n"
    rows = "".join(f"<dt>{word}</dt><dd>{html.escape(found[name].replace('JaJa', 'JáJá'))}</dd>\n" for name, word in SAID)
    return f"<dl>\n{rows}</dl>\n"


def run(example):
    """The example's own input, and what it prints."""
    given = (EXAMPLES / f"{example.name}.in").read_text().strip()
    out = example.call("run", *example.input)
    return "<h2 id=\"run\">A run</h2>\n" + (f"<p>On the input</p>\n{pre(given)}" if given else "") + f"<p>it comes to</p>\n{pre(out)}"


def counted(example):
    """What the run costs at each size: the numbers of the sizes, and those of the costs."""
    if not foot(example.text):
        yield {}, json.loads(example.call("cost", *example.input, "--format", "json"))
        return
    for numbers, values in cases(example.name, example.text):
        words = [word for name, number in numbers.items() for word in ("--size", f"{name}={number}")]
        yield numbers, json.loads(example.call("cost", *words, "--input", values, "--format", "json"))


def costs(example):
    """A table of the costs, and the picture of the sweep if there is one."""
    rows = list(counted(example))
    names = [*rows[0][0], *COUNTS]
    head = "".join(f"<th>{it.replace('_', ' ')}</th>" for it in names)
    lines = ("".join(f'<td class="number">{ {**numbers, **cost}.get(it, "") }</td>' for it in names) for numbers, cost in rows)
    table = f'<div class="wide"><table><tr>{head}</tr>' + "".join(f"<tr>{it}</tr>" for it in lines) + "</table></div>\n"
    shown = picture(f"{example.name}_sweep.svg", f"time and work of {example.name} at several sizes") if sweep(example) else ""
    if foot(example.text) and not shown:
        shown = "<p>No sweep is drawn, since its sizes go together.</p>\n"
    return f'<h2 id="costs">What it costs</h2>\n{table}{shown}'


def body(example):
    """The page of an example."""
    name = example.name
    text = code(example.text) if foot(example.text) else example.text
    rules = example.call("rules", *example.input)
    return "".join([
        f"<h1>{name}</h1>\n", facts(example), '<h2 id="text">The text</h2>\n', pre(text),
        f'<p><a href="{name}.pram">{name}.pram</a>, <a href="{name}.in">its input</a></p>\n', run(example),
        f'<p><a href="{name}_steps.html">Step through this run</a></p>\n', f'<h2 id="rules">Under each rule</h2>\n{pre(rules)}',
        costs(example),
        '<h2 id="flow">The flow of data</h2>\n', picture(f"{name}_flow.svg", f"the flow of data between the shared cells of {name}"),
        '<h2 id="statements">Statements and processors</h2>\n',
        picture(f"{name}_steps.svg", f"which processors execute each statement of {name}")])


def abouts(page):
    """What the page of the examples says of each, by its name: the text of the second column."""
    found = {}
    for name, about in re.findall(r"^\| \[`(\w+)`\]\(\w+\.pram\) \| (.*?) \|", page, re.M):
        found[name] = html.escape(about)
    return found
