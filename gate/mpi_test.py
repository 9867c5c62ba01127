#!/usr/bin/env python3
"""Runs the C text of plans under MPI, and compares what it writes with pramc: the trace, the outcome and the exit status.

mpi_test.py PROGRAM [--jobs N] [--drawn COUNT] [--seed S] [--only NAME] [--ranks N ..] [--both] [--sanitize] [--mpich]: Each example,
under each rule, by 1, 2, 3, 4 and 16 ranks, or by N, with two maps and some bounds, COUNT drawn programs, and memory texts; by 16 ranks,
and of what is drawn, with one of the maps in turn, or with --both. As many runs as ranks are the same are made in one start of MPI
(gate/mpi/host.c). What is refused, each example under its own rule, and one beyond the limits of the language, by a start of its own.
With --sanitize a few runs alone, under the compiler's sanitizers. By Open MPI, or with --mpich by MPICH where both are installed.
"""
import argparse
import os
import random
import re
import subprocess
import sys
import tempfile
from concurrent.futures import ThreadPoolExecutor
from pathlib import Path

TOP = Path(__file__).resolve().parent.parent
sys.path.insert(0, str(TOP / "gate" / "oracle"))
import draw
from jobs import JOBS

RULES = ["erew", "crew", "common", "priority", "sum"]
RANKS = [1, 2, 3, 4, 16]
MAPS = ["identity", "affine:5,3"]
RULE = re.compile(r"^rule (\w+);", re.M)
DECLARED = re.compile(r"^(?:cell (\w+)|array (\w+) (\d+) (\d+))$", re.M)
MPICC = ["mpicc"]
MPIRUN = ["mpirun", "--oversubscribe", "--bind-to", "none", "--mca", "mpi_yield_when_idle", "1", "--mca", "btl", "self,vader", "--mca",
          "pml", "ob1", "--quiet"]
ENVIRONMENT = {**os.environ, "OMPI_ALLOW_RUN_AS_ROOT": "1", "OMPI_ALLOW_RUN_AS_ROOT_CONFIRM": "1"}
WARNINGS = ["-Wall", "-Wextra", "-pedantic", "-Werror"]
HOSTED = ["-shared", "-fPIC", "-Dmain=plan_main", "-DMPI_Init=plan_init", "-DMPI_Finalize=plan_finalize"]
SANITIZERS = ["-g", "-fsanitize=address,undefined", "-fno-sanitize-recover=undefined"]


class Test:
    def __init__(self, program, folder, jobs, both):
        self.program, self.folder, self.jobs, self.both = program, folder, jobs, both
        self.wrong, self.ends, self.hosted = [], {0: 0, 1: 0, 2: 0, 3: 0}, {ranks: [] for ranks in RANKS}

    def plan(self, name, text):
        """The listing of a program, or None where it is refused."""
        file = self.folder / f"{name}.pram"
        file.write_text(text)
        done = subprocess.run([self.program, "plan", file], capture_output=True, text=True)
        if done.returncode:
            return None
        (self.folder / f"{name}.bsp").write_text(done.stdout)
        return self.folder / f"{name}.bsp"

    def export_all(self, listings):
        """Has the C text of each listing written."""
        for it in listings:
            text = subprocess.run([self.program, "export", "--listing", it], capture_output=True, check=True).stdout
            it.with_suffix(".c").write_bytes(text)

    def compile_all(self, listings, suffix, flags):
        """Compiles each text without a warning."""
        def compiled(listing):
            target = listing.with_suffix(suffix)
            done = subprocess.run([*MPICC, *WARNINGS, *flags, listing.with_suffix(".c"), "-o", target], capture_output=True, text=True)
            if done.returncode or done.stderr:
                self.wrong.append(f"mpicc {listing.stem}: {done.stderr}")

        with ThreadPoolExecutor(self.jobs) as pool:
            list(pool.map(compiled, listings))

    def wanted(self, verb, name, ranks, words):
        """What pramc writes, with its exit status."""
        call = [self.program, verb, self.folder / f"{name}.pram", "--workers", str(ranks), *words]
        done = subprocess.run(call, capture_output=True, text=True, timeout=300)
        self.ends[done.returncode] += 1
        return f"{done.stdout}{done.stderr}status {done.returncode}\n"

    def judge(self, what, wanted, found):
        if wanted != found:
            self.wrong.append(f"{' '.join(map(str, what))}\nwanted\n{wanted}found\n{found}")

    def host(self):
        """Makes the calls that were gathered, those of as many ranks in one start."""
        here, kept = Path(__file__).resolve().parent / "mpi" / "host.c", self.folder / "host"
        subprocess.run([*MPICC, "-O1", *WARNINGS, "-rdynamic", here, "-o", kept, "-ldl"], check=True)
        for ranks, calls in self.hosted.items():
            lines = [f"{self.folder / name}.so {self.folder}/out_{ranks}_{number} {' '.join(map(str, words))}\n"
                     for number, (verb, name, words) in enumerate(calls)]
            (self.folder / "list").write_text("".join(lines))
            with ThreadPoolExecutor(self.jobs) as pool:
                wanted = list(pool.map(lambda call: self.wanted(call[0], call[1], ranks, plain(call)), calls))
            call = [*MPIRUN, "-n", str(ranks), kept, self.folder / "list"]
            done = subprocess.run(call, capture_output=True, text=True, env=ENVIRONMENT)
            for number, call in enumerate(calls):
                file = self.folder / f"out_{ranks}_{number}"
                found = file.read_text() if file.exists() else f"nothing: {done.returncode} {done.stderr}\n"
                self.judge((ranks, *call), wanted[number], found)

    def start(self, verb, name, ranks, words):
        """One call by a start of its own."""
        call = [*MPIRUN, "-n", str(ranks), self.folder / f"{name}.run", *words]
        # Starts at one time, in one folder for sessions, may take it away from each other.
        with tempfile.TemporaryDirectory(prefix="mpi") as session:
            own = {**ENVIRONMENT, "TMPDIR": session}
            done = subprocess.run(call, capture_output=True, text=True, timeout=300, env=own)
        told = [f"{it}\n" for it in done.stderr.splitlines() if it.startswith("refused") or "ERROR" in it or "runtime error" in it]
        wanted = self.wanted(verb, name, ranks, plain((verb, name, words)))
        self.judge(call, wanted, f"{done.stdout}{''.join(told)}status {done.returncode}\n")

    def start_all(self, calls):
        with ThreadPoolExecutor(self.jobs) as pool:
            list(pool.map(lambda call: self.start(*call), calls))


def plain(call):
    """The words of a call for pramc, where a verb says that the exchanges are told."""
    return [it for it in call[2] if it != "--trace"]


def memory_of(listing, pick):
    """A memory text for a listing: a line for each declaration, of an array for some of its cells, in any order."""
    lines = []
    for cell, array, low, high in DECLARED.findall(listing.read_text()):
        first = 0 if cell else pick.randint(int(low), int(high))
        last = first if cell else pick.randint(first, int(high))
        values = " ".join(str(pick.randint(-1, 9)) for _ in range(min(last - first + 1, pick.randint(1, 40))))
        lines.append(f"{cell} = {values}" if cell else f"{array}[{first}..{last}] = {values}  # {array}")
    pick.shuffle(lines)
    return "".join(f"{it}\n" for it in lines)


def of_example(test, name, file, turn):
    """The calls of a program: by all ranks and both maps, by 16 ranks with one of them in turn, by some bounds, and on a memory."""
    given = ["--input", file]
    for ranks in RANKS:
        for chosen in MAPS if test.both or ranks < 16 else [MAPS[turn % 2]]:
            test.hosted[ranks].append(("trace", name, ["--trace", *given, "--map", chosen, "--outcome"]))
    test.hosted[RANKS[turn % len(RANKS)]].append(("trace", name, ["--trace", *given]))
    test.hosted[RANKS[(turn + 1) % len(RANKS)]].append(("run", name, [*given, "--map", MAPS[turn % 2]]))
    for at, bound in enumerate([0, 1 + turn % 3, 5 + turn % 7, 17]):
        words = ["--trace", *given, "--bound", str(bound), "--outcome", "--map", MAPS[(turn + at) % 2]]
        test.hosted[RANKS[(turn + at) % len(RANKS)]].append(("trace", name, words))
    memory = test.folder / f"{name}.memory"
    memory.write_text(memory_of(test.folder / f"{name}.bsp", random.Random(name)))
    words = ["--trace", "--memory", memory, "--outcome", "--bound", "200", "--map", MAPS[turn % 2]]
    test.hosted[RANKS[(turn + 2) % len(RANKS)]].append(("trace", name, words))


def examples(test, only):
    """Each under each rule; under its own one by a start of its own too."""
    starts, listings, own = [], [], []
    for turn, file in enumerate(sorted((TOP / "examples").glob("*.pram"))):
        if only and only != file.stem:
            continue
        text = file.read_text()
        for at, rule in enumerate(RULES):
            name = f"{file.stem}.{rule}"
            listings.append(test.plan(name, RULE.sub(f"rule {rule};", text, count=1)))
            of_example(test, name, file.with_suffix(".in"), turn + at)
        name = f"{file.stem}.{RULE.search(text)[1]}"
        own.append(test.folder / f"{name}.bsp")
        starts.append(("run", name, RANKS[turn % min(4, len(RANKS))], ["--input", file.with_suffix(".in")]))
    test.export_all(listings)
    test.compile_all(listings, ".so", ["-O0", *HOSTED])
    test.compile_all(own, ".run", ["-O2"])
    test.start_all(starts)
    return len(listings)


def drawn(test, count, seed):
    """Programs that the generator of gate/oracle draws, as far as they are accepted."""
    listings = []
    for number in range(count):
        drawer = draw.Drawer(random.Random(f"{seed} {number}"))
        name = f"drawn_{number}"
        listing = test.plan(name, drawer.text())
        if not listing:
            continue
        given = test.folder / f"{name}.in"
        is_memory = number % 3 == 2
        values = " ".join(map(str, drawer.input())) + "\n"
        given.write_text(memory_of(listing, random.Random(f"{seed} {number}")) if is_memory else values)
        listings.append(listing)
        for at, ranks in enumerate(RANKS):
            for chosen in MAPS if test.both else [MAPS[(number + at) % 2]]:
                words = ["--trace", "--memory" if is_memory else "--input", given, "--map", chosen, "--outcome"]
                test.hosted[ranks].append(("trace", name, [*words, "--bound", str(150 if at % 2 else number % 30)]))
    test.export_all(listings)
    test.compile_all(listings, ".so", ["-O0", *HOSTED])
    return len(listings)


REFUSED = [b"1 2 x", b"1 -  2", b"1-2", b"9223372036854775808", b"-9223372036854775809", b"1 \x80", b"12a", b"--1", b"-", b"1 -",
           b"1\f2", b"7 " * 17, b"1 " * 524288 + b"2", b"1\x002", b"#"]
# Of a program whose shared declarations are s, a[1..4] and t.
MEMORIES = [b"", b"s = 7\na[1..4] = 1 2 3 4\nt = -9\n", b"t=-9\ns\t=\r\n", b"a = 1 2", b"  a [ 2 .. 3 ] = 8 9 # these\n# t = 1\n",
            b"a = 1 2 3\na[2..2] = 7\ns = 1\ns = 2", b"\n\n  \r\n\t# nothing", b"a[1..1]=-9223372036854775808", b"s = 1 # \x00", b"s 7",
            b"s", b"s # = 7", b"= 7", b"s = 1 x 2", b"t = 1\ns = 7 +1\n", b"a[1.2] = 1", b"a[1..2 = 1", b"a[..2] = 1", b"a[1. .2] = 1",
            b"zz = 1 x", b"s = 1\n  zz = 1", b"a[2..5] = 1", b"a[ 0..2] = 1", b"a[2..1] = ", b"s[0..0] = 1", b"s = 1 2",
            b"a[2..3] = 1 2 3\nzz", b"s = 9223372036854775808", b"s = 1\x00", b"s\x00 = 1", b"s = \x80", b"ss = 1", b"a1 = 1",
            b"a[1..--2] = 1", b"a[1]=1", b"s == 1"]
ACCEPTED = [b"", b" ", b"-9223372036854775808 9223372036854775807", b"007 -0 -1", b"\t1\r\n2 \n", b"5 " * 16]
WORDS = [["--bound", "x"], ["--bound", "4294967296"], ["--bound", ""], ["--map", "affine:2,1"], ["--map", "affine:5"],
         ["--map", "affine:5,"], ["--map", "affine:4294967296,1"], ["--map", "identity,5"], ["--input", "/nonexistent"],
         ["--map", "affine:4294967295,4294967295"], ["--bound", "0042"], ["--map", "affine:005,00"], ["--memory", "/nonexistent"],
         ["--memory", "-", "--input", "-"]]


def refusals(test):
    """Inputs and words, most of which are refused, of one program."""
    name = "refused"
    calls = [("run", name, 2, words) for words in WORDS]
    listing = test.plan(name, (TOP / "examples" / "tree_sum.pram").read_text())
    for number, data in enumerate([*REFUSED, *ACCEPTED]):
        file = test.folder / f"refused_{number}.in"
        file.write_bytes(data)
        calls.append(("run", name, 1 + number % 2, ["--input", file]))
    test.export_all([listing])
    test.compile_all([listing], ".run", ["-O2"])
    test.start_all(calls)


def memories(test):
    """Memory texts, most of which are refused, by all ranks and both maps in turn."""
    name = "memories"
    text = "rule crew; procs 4; shared s; shared a[1..4]; shared t;\nbegin for 1 <= i <= 4 pardo a[i] := a[i] + s; end print t; end\n"
    listing = test.plan(name, text)
    for number, data in enumerate(MEMORIES):
        file = test.folder / f"memories_{number}"
        file.write_bytes(data)
        for at, ranks in enumerate(RANKS):
            test.hosted[ranks].append(("run", name, ["--memory", file, "--map", MAPS[(number + at) % 2]]))
    test.export_all([listing])
    test.compile_all([listing], ".so", ["-O0", *HOSTED])


def grown(test, cells=2097152):
    """The program of docs/SCALE.md that takes its size from a cell, with more cells and processors than the language has."""
    text = re.search(r"```pram grows\.pram\n(.*?)```", (TOP / "docs" / "SCALE.md").read_text(), re.S)[1]
    listing = test.plan("grows", text)
    test.export_all([listing])
    source = listing.with_suffix(".c")
    for old, new in [("define PROCS 8", f"define PROCS {cells}"), ('"a", 1, 8}', f'"a", 1, {cells}}}'), ("CELL_BITS 20", "CELL_BITS 22")]:
        assert source.read_text().count(f"{old}\n" if "define" in old else old) == 1, old
        source.write_text(source.read_text().replace(old, new))
    test.compile_all([listing], ".run", ["-O2"])
    values = test.folder / "grows.in"
    values.write_text(f"{cells}\n")
    call = [*MPIRUN, "-n", "4", test.folder / "grows.run", "--input", values]
    done = subprocess.run(call, capture_output=True, text=True, env=ENVIRONMENT)
    whole = cells * (cells + 1) // 2
    beginning = " ".join(done.stdout.split(" ")[:5])
    test.judge(call, f"{whole}\nended\nsize = {cells}\na[1..{cells}] = {whole}", beginning)


def sanitized(test):
    """Some examples under each rule, with few ranks, where the compiler's sanitizers look on."""
    starts, listings = [], []
    for stem in ["bitonic_sort", "conflict_sum", "faults", "matrix_product_sum", "out_of_range", "prefix_tree", "sum",
                 "connected_components"]:
        file = TOP / "examples" / f"{stem}.pram"
        for at, rule in enumerate(RULES):
            name = f"{stem}.{rule}"
            listings.append(test.plan(name, RULE.sub(f"rule {rule};", file.read_text(), count=1)))
            words = ["--trace", "--input", file.with_suffix(".in"), "--map", MAPS[at % 2], "--outcome"]
            starts.append(("trace", name, RANKS[at % min(4, len(RANKS))], words))
    test.export_all(listings)
    test.compile_all(listings, ".run", ["-O1", *SANITIZERS])
    ENVIRONMENT["ASAN_OPTIONS"] = "detect_leaks=0"
    test.start_all(starts)
    return len(listings)


def main():
    options = argparse.ArgumentParser()
    options.add_argument("program", type=Path)
    options.add_argument("--jobs", type=int, default=JOBS)
    options.add_argument("--drawn", type=int, default=300)
    options.add_argument("--seed", type=int, default=1)
    options.add_argument("--only", default="")
    options.add_argument("--ranks", type=int, nargs="+", default=RANKS)
    options.add_argument("--both", action="store_true")
    options.add_argument("--sanitize", action="store_true")
    options.add_argument("--mpich", action="store_true")
    given = options.parse_args()
    RANKS[:] = given.ranks
    if given.mpich:
        MPICC[:], MPIRUN[:] = ["mpicc.mpich"], ["mpirun.mpich"]
    with tempfile.TemporaryDirectory() as folder:
        test = Test(given.program.resolve(), Path(folder), given.jobs, given.both)
        if given.sanitize:
            plans, more = sanitized(test), 0
        else:
            refusals(test)
            memories(test)
            grown(test)
            plans = examples(test, given.only)
            more = drawn(test, given.drawn, given.seed)
            test.host()
    print(*test.wrong, sep="\n", end="\n" if test.wrong else "")
    ends = ", ".join(f"{many} {how}" for how, many in zip(["ended", "faulted", "refused", "at the bound"], test.ends.values()))
    runs = sum(test.ends.values())
    print(f"mpi: {plans} plans of examples, {more} drawn; {runs} runs ({ends}), {len(test.wrong)} otherwise than pramc")
    return 1 if test.wrong else 0


sys.exit(main())
