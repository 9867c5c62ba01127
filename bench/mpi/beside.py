"""Times plans as C over MPI beside workers in threads.

beside.py plan PRAMC PROGRAMS FOLDER    writes the plans as listings into the folder
beside.py time PRAMC PROGRAMS FOLDER    compiles the C texts of these plans, and prints a table of seconds
"""

import os
import platform
import subprocess
import sys
import time

VERB, PRAMC, PROGRAMS, WORK = sys.argv[1:]
NAMES = ["jump", "sums", "local", "start"]
BOUND = ["--bound", "100000000"]
REPEATS = 3
COUNTS = [1, 4]
START = "rule crew; procs 1;\nvar t;\nbegin\nt := 1;\nend\n"
ENVIRONMENT = {**os.environ, "OMPI_ALLOW_RUN_AS_ROOT": "1", "OMPI_ALLOW_RUN_AS_ROOT_CONFIRM": "1"}


def source(name):
    return f"{WORK}/{name}.pram" if name == "start" else f"{PROGRAMS}/{name}.pram"


def mpirun(ranks):
    """With Open MPI more ranks than processors have to be allowed; MPICH has no such word."""
    told = subprocess.run(["mpirun", "--version"], capture_output=True, text=True).stdout
    return ["mpirun", *(["--oversubscribe"] if "Open MPI" in told else []), "-n", str(ranks)]


def run(words):
    return subprocess.run(words, check=True, capture_output=True, env=ENVIRONMENT).stdout


def seconds(words):
    start = time.perf_counter()
    run(words)
    return time.perf_counter() - start


def calls(name):
    """By workers in threads, and then by ranks."""
    threads = [[PRAMC, "run", source(name), "--workers", str(count), *BOUND] for count in COUNTS]
    return threads + [[*mpirun(count), f"{WORK}/{name}", *BOUND] for count in COUNTS]


def plan():
    with open(source("start"), "w") as file:
        file.write(START)
    for name in NAMES:
        with open(f"{WORK}/{name}.bsp", "wb") as file:
            file.write(run([PRAMC, "plan", source(name)]))


def table():
    print(f"{platform.machine()}, {os.cpu_count()} processors, load {os.getloadavg()[0]:.1f}")
    print("| Program | " + " | ".join([f"{count} workers" for count in COUNTS] + [f"{count} ranks" for count in COUNTS]) + " |")
    print("|---|" + "---|" * 2 * len(COUNTS))
    for name in NAMES:
        subprocess.run(["mpicc", "-O3", f"{WORK}/{name}.c", "-o", f"{WORK}/{name}"], check=True)
        if len({run(words) for words in calls(name)}) > 1:
            sys.exit(f"{name}: not all write the same")
        best = [float("inf")] * 2 * len(COUNTS)
        for _ in range(REPEATS):
            best = [min(old, seconds(words)) for old, words in zip(best, calls(name))]
        print(f"| `{name}` | " + " | ".join(f"{took:.2f}" for took in best) + " |", flush=True)


plan() if VERB == "plan" else table()
