"""Times runs by workers in threads beside the definition, the interpreter and loops written by hand, and what a run, a reserve and an
exchange cost."""

import os
import platform
import subprocess
import sys
import time

PRAMC, PEER, PLAIN, CHECKED, MACHINE, PROGRAMS, WORK = sys.argv[1:]
BOUND = ["--bound", "100000000"]
REPEATS = 5
# How often loops written by hand run in a call, of which one alone takes about as long as a process starts.
TIMES = 20
WORKERS = [1, 2, 4]
TURNS = 20000

SMALL = "rule crew; procs 1;\nvar t;\nbegin\nt := 1;\nprint t;\nend\n"

# each processor reads its neighbour's cell and writes its own
SWAPS = """rule crew; procs {0};
shared a[1..{0}]; var k;
begin
for k := 1 to 100 do
for 1 <= i <= {0} pardo a[i] := a[{0} + 1 - i] + i; end
end
end
"""


def seconds(words):
    start = time.perf_counter()
    subprocess.run(words, check=True, stdout=subprocess.DEVNULL)
    return time.perf_counter() - start


def times_of(calls, repeats=REPEATS):
    """The times of each call, in order, where they are made by turns."""
    rounds = [[seconds(words) for words in calls] for _ in range(repeats)]
    return [sorted(times) for times in zip(*rounds)]


def fastest(calls, repeats=REPEATS):
    """The least time of each call."""
    return [times[0] for times in times_of(calls, repeats)]


def threads(number, words):
    return ["env", f"OMP_NUM_THREADS={number}", "TSAN_OPTIONS=report_bugs=0", *words]


def by_hand(program, name, number):
    """The time of the loops, by so many threads."""
    many, one = fastest([threads(number, [program, name, str(times)]) for times in [TIMES + 1, 1]])
    return (many - one) / TIMES


def file_of(name, text):
    path = f"{WORK}/{name}"
    with open(path, "w") as file:
        file.write(text)
    return path


def run(path, workers):
    return [PRAMC, "run", path, "--workers", str(workers), *BOUND]


def traffic(path, workers):
    """How many exchanges a run makes, and how many words its workers send."""
    words = [PRAMC, "trace", path, "--workers", str(workers), *BOUND]
    lines = subprocess.run(words, check=True, capture_output=True, text=True).stdout.splitlines()
    sent = (line.split(" sent ")[1].split(" received ")[0].split() for line in lines)
    return len(lines), sum(int(word) for words in sent for word in words)


def empty_exchange(workers, prefix=()):
    """How long an exchange without words takes, in microseconds."""

    def listing(name, body):
        start = ["mark 1", f"uset 0 {TURNS}", "uset 1 1"]
        code = [*start, "mark 2", f"jzero 0 {7 + len(body)}", "usub 0 0 1 1", *body, "jump 3", "halt"]
        head = ["bsp 1", "rule crew", "procs 1", "uniform 2", "private 0", f"code {len(code)}"]
        text = "".join(f"{line}\n" for line in [*head, *(f"{place} {it}" for place, it in enumerate(code))])
        return [*prefix, PRAMC, "exec", file_of(name, text), "--workers", str(workers), *BOUND]

    more, less = fastest([listing("with", ["send"]), listing("without", [])])
    return (more - less) * 1e6 / TURNS


def reserved(path):
    """How long four workers take that have taken all memory first, and others that take it on the way."""
    exchanges, _words = traffic(path, 4)
    return fastest([[*run(path, 4), "--reserve", f"10,{exchanges}"], run(path, 4)])


# What each ratio is to be at most: one worker and four to the interpreter, four to four threads that a sanitizer watches for conflicts,
# and one to one thread.
AIMS = {
    "jump": [0.45, 0.2, 1, 20],
    "sums": [0.12, 0.07, 1, 26],
    "local": [0.1, 0.07, 1, 4],
    "uniform": [0.5, 0.55, 1, 3.5],
}
# Loops by hand of code whose constants are known when it is read.
DECODED = {"local": ["local_decoded", "local_in_one"], "uniform": ["uniform_decoded"]}


def programs(crossing):
    for name, aims in AIMS.items():
        path = f"{PROGRAMS}/{name}.pram"
        calls = [run(path, p) for p in WORKERS]
        *ours, meaning, peer = times_of([*calls, [PRAMC, "meaning", path, *BOUND], [PEER, "run", path, *BOUND]])
        spread = ", ".join(f"{p} {times[0]:.3f} to {times[-1]:.3f}" for p, times in zip(WORKERS, ours))
        print(f"{name}: workers {spread} s, meaning {meaning[0]:.3f}, interpreter {peer[0]:.3f} to {peer[-1]:.3f}")
        one, four = ours[0][0], ours[-1][0]
        plain, checked = by_hand(PLAIN, name, 1), by_hand(CHECKED, name, 4)
        print(f"  by hand: 1 thread {plain:.4f} s, 4 threads with a sanitizer {checked:.4f}")
        ratios = [one / peer[0], four / peer[0], four / checked, one / plain]
        words = ["1 worker / interpreter", "4 workers / interpreter", "4 workers / 4 threads, sanitized", "1 worker / 1 thread"]
        print("  " + "; ".join(f"{it} {ratio:.2f} (aim {aim})" for it, ratio, aim in zip(words, ratios, aims)))
        alike = by_hand(MACHINE, name, 1)
        print(f"  loops by hand that do what the code does: {alike:.3f} s, of which 1 worker takes {one / alike:.1f} times")
        for loops in DECODED.get(name, []):
            decoded = by_hand(MACHINE, loops, 1)
            print(f"  {loops}: {decoded:.4f} s, of which 1 worker takes {one / decoded:.1f} times")
        if any(ratio > aim for ratio, aim in zip(ratios, aims)):
            for p in WORKERS:
                exchanges, sent = traffic(path, p)
                waits = exchanges * crossing[p] / 1e6
                print(f"  {p} workers: {exchanges} exchanges, {sent} words; as many exchanges without words take {waits:.3f} s")
        first, on_the_way = reserved(path)
        print(f"  4 workers with a reserve {first:.3f} s, without {on_the_way:.3f}")


def main():
    print(f"{platform.machine()}, {os.cpu_count()} processors, load {os.getloadavg()[0]:.1f}")
    small = file_of("small", SMALL)
    *starts, meaning = fastest([*(run(small, p) for p in [1, 2, 4, 32]), [PRAMC, "meaning", small, *BOUND]], 50)
    more = ", ".join(f"{p} {(took - meaning) * 1e3:.2f}" for p, took in zip([1, 2, 4, 32], starts))
    print(f"start of a run: meaning {meaning * 1e3:.2f} ms, workers {more} ms more (aim 0.4 by 4)")
    crossing = {p: empty_exchange(p) for p in [*WORKERS, 8, 32]}
    print("an exchange without words: " + ", ".join(f"{p} workers {took:.2f} us" for p, took in crossing.items())
          + " (aims 3 by 2, 5 by 4)")
    alone = {p: empty_exchange(p, ["taskset", "-c", "0"]) for p in crossing}
    print("  on one core: " + ", ".join(f"{p} workers {took:.2f} us" for p, took in alone.items()))
    programs(crossing)
    whole, half = file_of("whole", SWAPS.format(16384)), file_of("half", SWAPS.format(8192))
    for p in WORKERS:
        more, less = fastest([run(whole, p), run(half, p)])
        print(f"16,384 against 8,192 processors by {p} workers: {more / less:.2f} times (aim at most 2.1)")


main()
