"""Times the machine beside the interpreter, and single instructions by two listings that differ in these alone."""

import subprocess
import sys
import time

PRAMC, PEER, PROGRAMS, WORK = sys.argv[1:]
BOUND = ["--bound", "100000000"]
REPEATS = 5
MOST = 16384


def seconds(words):
    start = time.perf_counter()
    subprocess.run(words, check=True, stdout=subprocess.DEVNULL)
    return time.perf_counter() - start


def fastest(calls):
    """The least time of each call, where they are made by turns."""
    best = [float("inf")] * len(calls)
    for _ in range(REPEATS):
        best = [min(old, seconds(words)) for old, words in zip(best, calls)]
    return best


def listing(name, procs, turns, before, body, behind):
    """Some instructions in a loop of so many turns, in a range of that many processors."""
    code = ["mark 1", "uset 0 1", f"uset 1 {procs}", f"uset 2 {turns}", "uset 3 1", "enter 0 1 1", "pindex 0", "pset 1 3", *before]
    loop = len(code)
    end = loop + 4 + len(body)
    code += ["mark 2", f"jzero 2 {end}", "usub 2 2 3 1", *body, f"jump {loop}", *behind, "leave", "halt"]
    head = ["bsp 1", "rule crew", f"procs {procs}", f"array a 1 {MOST}", "uniform 5", "private 6", f"code {len(code)}"]
    path = f"{WORK}/{name}"
    with open(path, "w") as file:
        file.write("".join(f"{line}\n" for line in head))
        file.write("".join(f"{place} {instr}\n" for place, instr in enumerate(code)))
    return [PRAMC, "exec", path, "--workers", "1", *BOUND]


def cost(body, times, procs=MOST, turns=400, before=(), behind=()):
    """How long the body takes, once and for one processor, in nanoseconds."""
    with_body = listing("with", procs, turns, list(before), list(body) * times, list(behind))
    without = listing("without", procs, turns, list(before), [], list(behind))
    more, less = fastest([with_body, without])
    return (more - less) * 1e9 / (turns * times * procs)


HALF = (["pset 4 2", "pmod 5 0 4 1", "mask 5"], ["unmask"])
SINGLE = [
    ("a sum", "padd 2 0 1 1", 0.6, 1.2),
    ("a sum onto an operand", "padd 2 2 1 1", 0.6, 2.3),
    ("a comparison", "plt 2 0 1", 0.6, 1.5),
    ("a connective", "pand 2 0 1", 0.6, 1.5),
    ("a product", "pmul 2 0 1 1", 2, 3),
    ("a division", "pdiv 2 0 1 1", 5, 5.5),
]


def main():
    for name in ["jump", "sums", "local", "uniform"]:
        path = f"{PROGRAMS}/{name}.pram"
        ours, theirs = fastest([[PRAMC, "run", path, "--workers", "1", *BOUND], [PEER, "run", path, *BOUND]])
        print(f"{name}: {ours:.3f} s, interpreter {theirs:.3f} s, ratio {ours / theirs:.2f}")
    print(f"a read, from ask to register: {cost(['pask 2 0 0 1', 'send', 'reply'], 1):.2f} ns (aim 8)")
    print(f"a put, to its cell: {cost(['pput 0 0 1 1', 'send'], 1):.2f} ns (aim 10)")
    print(f"a uniform instruction: {cost(['uadd 4 4 3 1'], 1000, procs=1, turns=10000):.2f} ns (aim 2)")
    for name, instr, aim, listed_aim in SINGLE:
        all_active = cost([instr], 10)
        # half of the processors are active
        listed = 2 * cost([instr], 10, before=HALF[0], behind=HALF[1])
        print(f"{name}, a processor: {all_active:.2f} ns (aim {aim}), where some are active {listed:.2f} ns (aim {listed_aim})")
    body = ["padd 2 0 1 1", "pmul 3 2 1 1", "pput 0 0 3 1", "send"]
    ratio = 2 * cost(body, 1) / cost(body, 1, procs=MOST // 2)
    print(f"16,384 against 8,192 processors: {ratio:.2f} times (aim at most 2.1)")


main()
