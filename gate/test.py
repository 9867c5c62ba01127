#!/usr/bin/env python3
"""Uses the program as people do, and as nobody should, and compares what it says with what it has to say.

test.py [PROGRAM [PART ..]]: bin/pramc, where none is named; all parts, or those named. As many run side by side as there are processors. A
part whose tool isn't on this machine is skipped, and so are those that need the program as it was proved and built, where it says of itself
that it wasn't. What a part says is shown where it fails. It needs Bash and Python, and changes nothing but bin/.
"""
import os
import shutil
import subprocess
import sys
import tempfile
import time
from concurrent.futures import ThreadPoolExecutor
from dataclasses import dataclass
from pathlib import Path

from jobs import JOBS

GATE = Path(__file__).resolve().parent
LONGEST = 1800  # seconds of a part, far more than it takes
SKIPPED = 77  # the status of a part that can't be run here, and says why


@dataclass
class Part:
    name: str
    about: str
    words: tuple
    tools: tuple = ()
    as_built: bool = False
    jobs: int = 1


def hostile(name, about, *tools):
    return Part(f"hostile-{name}", about, ("hostile/hostile.py", name), tools, True)


# How many plans are run under MPI (gate/mpi_test.py).
MPI = os.environ.get("MPI", "--drawn 20 --ranks 1 3 4").split()

# Those that take longest first.
PARTS = [
    Part("mpi", "plans as C, run under MPI", ("mpi_test.sh", *MPI), ("mpicc", "mpirun"), True, 2),
    hostile("memory", "each allocation and each start of a thread is refused in turn", "cc"),
    Part("memory", "no command takes more memory than it may", ("memory_table.py",), ("/usr/bin/time",), True),
    hostile("long", "long runs by 4 and by 32 workers"),
    Part("documents", "the commands of README, the tutorials, LANGUAGE and gate/rows", ("documents.py",)),
    Part("pages", "the pages of thirteen runs, stepped through in a browser", ("page_test.py",), ("chromium",)),
    hostile("texts", "texts are cut and changed"),
    hostile("guards", "nothing behind a block of memory is touched", "cc"),
    Part("json", "what is said as JSON is what is said in words", ("json_texts.py",)),
    Part("schema", "the JSON Schema knows each line, and no changed one", ("schema_test.py",)),
    Part("plain-c", "plans as plain C, run beside the program", ("plain_c_test.py",), ("gcc",)),
    Part("oracle", "500 drawn programs, 600 changed texts and listings, beside an interpreter in Python", ("oracle/compare.py",)),
    Part("cut-off", "outputs that are cut off behind each byte", ("cut_off.py",)),
    hostile("stops", "runs that are stopped and let go on"),
    Part("packages", "the archive, the package and the wheel are made, unpacked, used and taken away", ("dist_test.sh",),
         ("tar", "xz", "gzip", "objdump", "dpkg-deb", "man"), True),
    hostile("streams", "each write fails in turn", "cc"),
    Part("examples", "each example by its definition, by workers, under each rule, and from its listing", ("examples.py",)),
    Part("corpus", "the examples, as a folder of somebody's programs, beside that interpreter",
         ("oracle/compare.py", "--from", str(GATE.parent / "examples"), "--bound", "2000")),
    Part("notebook", "the notebook of the first hour, run from start to end", ("notebook_test.py",)),
    Part("always", "what one run for all inputs tells of 500 drawn programs, beside runs on each input", ("always.py",)),
    Part("drawn", "what the commands say of 60 drawn programs agrees", ("drawn_outputs.py",)),
    Part("layouts", "the examples are laid out, and 200 drawn programs with any white space and comments", ("layouts.py",)),
    hostile("crowds", "all workers on one core, and 32 runs at once", "taskset"),
    Part("texts", "texts and inputs are read, or refused at their byte", ("syntax.py",)),
    Part("listings", "listings are read, refused and run", ("listings.py",)),
    Part("site", "the documents and the examples as a folder of HTML", ("site_test.py",)),
    Part("python", "the package for Python, installed in an empty folder and used", ("python_test.py",)),
    Part("traces", "pictures of traces, read as XML", ("pictures.py",)),
    Part("steps", "pictures of statements, read as XML", ("step_pictures.py",)),
    Part("flows", "pictures of the flow of data, read as XML", ("flow_pictures.py",)),
    Part("running", "lines come as a run goes, whole ones, and for as many seconds as it has", ("as_it_runs.py",)),
    Part("terminals", "what terminals get", ("terminals.py",)),
    Part("vim", "mistakes are listed by :make in Vim", ("vim_test.sh",), ("vim",)),
]
UNPROVED = b"unproved: "


def run(part, program):
    """The exit status of a part, what it said, and its seconds."""
    script, *words = part.words
    by = "bash" if script.endswith(".sh") else sys.executable
    begun = time.monotonic()
    how = {"stdin": subprocess.DEVNULL, "stdout": subprocess.PIPE, "stderr": subprocess.STDOUT, "timeout": LONGEST}
    try:
        done = subprocess.run([by, GATE / script, program, *words], env={**os.environ, "JOBS": str(part.jobs)}, **how)
        return done.returncode, done.stdout.decode(errors="replace"), time.monotonic() - begun
    except subprocess.TimeoutExpired as it:
        return 1, f"{(it.stdout or b'').decode(errors='replace')}\nit isn't done within {LONGEST} s\n", LONGEST


def why_skipped(part, proved):
    """Why a part can't be run here, or nothing."""
    missing = [it for it in part.tools if not shutil.which(it)]
    if part.as_built and not proved:
        return "it takes the program as it is proved and built"
    return f"there is no {', no '.join(missing)}" if missing else None


def told(how, seconds, part, more):
    print(f"{how:7} {seconds:>6}  {part.name}: {more}", flush=True)
    return how


def tried(part, program, proved):
    """Tells of a part, and answers how it came out."""
    why = why_skipped(part, proved)
    if why:
        return told("skipped", "", part, why)
    status, said, seconds = run(part, program)
    lines = said.splitlines()[-60:]
    if status == SKIPPED:
        return told("skipped", "", part, lines[-1])
    if status:
        return told("FAILED", f"{seconds:.0f} s", part, "\n    ".join([part.about, *(it[:400] for it in lines)]))
    return told("passed", f"{seconds:.0f} s", part, part.about)


def told_of(program):
    """The program's version, and whether it is proved."""
    try:
        said = subprocess.run([program, "--version"], capture_output=True, timeout=60)
    except OSError as it:
        sys.exit(f"{program}: {it.strerror}")
    if said.returncode:
        sys.exit(f"{program} doesn't run here: {said.stderr.decode(errors='replace')}")
    return said.stdout.decode().strip(), not said.stderr.startswith(UNPROVED)


def known(program, folder):
    """A program that isn't proved, so that it doesn't say so each time."""
    file = Path(folder) / "pramc"
    file.write_text(f'#!/bin/sh\nUNPROVED=known exec "{program}" "$@"\n')
    file.chmod(0o755)
    return file


def main():
    program = Path(sys.argv[1] if sys.argv[1:] else GATE.parent / "bin/pramc").resolve()
    names = sys.argv[2:]
    parts = [it for it in PARTS if not names or it.name in names]
    if unknown := {*names} - {it.name for it in PARTS}:
        sys.exit(f"no part is called {' or '.join(sorted(unknown))}; there are {', '.join(it.name for it in PARTS)}")
    version, proved = told_of(program)
    print(f"{version}, {'proved' if proved else 'built without proofs'}: {len(parts)} parts, {JOBS} at a time", flush=True)
    begun = time.monotonic()
    with tempfile.TemporaryDirectory() as folder, ThreadPoolExecutor(JOBS) as pool:
        used = program if proved else known(program, folder)
        found = list(pool.map(lambda it: tried(it, used, proved), parts))
    skipped = f", {found.count('skipped')} skipped" if "skipped" in found else ""
    print(f"{time.monotonic() - begun:.0f} s")
    print(f"{found.count('passed')} passed, {found.count('FAILED')} failed{skipped}")
    return 1 if "FAILED" in found else 0


if __name__ == "__main__":
    sys.exit(main())
