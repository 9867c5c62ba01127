"""Uses the program as nobody should, and looks at what it says: memory, threads and writes that are refused, broken texts, blocks that end
at pages which can't be touched, long runs, and runs that are stopped, crowded, or all on one core.

hostile.py PROGRAM [PART ..]: the parts are memory, streams and guards, which need a compiler of C (cc), texts, long, crowds and stops.
"""

import itertools
import os
import random
import re
import signal
import subprocess
import sys
import tempfile
import threading
import time
from concurrent.futures import ThreadPoolExecutor
from pathlib import Path

INPUTS = Path(__file__).resolve().parent
sys.path.insert(0, str(INPUTS.parent))
from jobs import JOBS

PROGRAM = str(Path(sys.argv[1]).resolve())
WORK = tempfile.TemporaryDirectory()
FOLDER = Path(WORK.name)
# What is loaded before the program: by the one what it asks for is refused, by the other its blocks lie alone.
STUB, GUARD = FOLDER / "refuse.so", FOLDER / "guard.so"
EXAMPLES = INPUTS.parent.parent / "examples"
LONGEST = 60  # seconds of one call, far more than it takes
EVERY = 20  # of the changes of a text by one byte
SIZES = 40_000  # of one text, each in a line of its own
SIZES_SECONDS = 5  # of a processor at most, for all these sizes
WORKERS = 3

LONG = """rule crew; procs 32;
shared s[1..32]; var k;
begin
for k := 1 to {} do
for 1 <= i <= 32 pardo s[i] := k * i; end
end
end
"""

OUTCOME = re.compile(
    rb"(-?[0-9]+\n)*"
    rb"(goes on\n|ended\n(\w+(\[-?[0-9]+\.\.-?[0-9]+\])? =( -?[0-9]+)+\n)*"
    rb"|fault (overflow|divide-by-zero|out-of-range|too-wide|read-conflict|write-conflict) "
    rb"(all|processor -?[0-9]+|\w+(\[-?[0-9]+\])?) line [0-9]+\n)"
)
REFUSAL = re.compile(
    rb"refused (E(1 NotAscii|3 BadToken|4 Syntax|5 TooDeep|6 UnknownName|7 DoubleName|8 WrongKind|9 AssignedLoopVariable|15 BadListing)"
    rb" at [0-9]+|E10 Limit (cells|procs|bounds|reads|tokens)|E11 InputTooLong|E14 NotVerified at [0-9]+ [a-z-]+)\n"
)
NO_MEMORY = b"refused E16 OutOfMemory\n"
NO_MEMORY_IN_JSON = (
    b'{"message":"memory was refused: nothing is said of the text or the run, and with more memory it may go well",'
    b'"name":"OutOfMemory","refused":"E16"}\n'
)
NO_MEMORY_FOR_JSON = b'{"name":"OutOfMemory","refused":"E16"}\n'
NOT_WRITTEN = b"refused E17 WriteFailed\n"

own = threading.local()
numbers = itertools.count()


class Wrong(Exception):
    """What the program must not do."""


def own_file(name):
    """A file of that name for this thread of the script alone."""
    if not hasattr(own, "folder"):
        own.folder = FOLDER / str(next(numbers))
        own.folder.mkdir()
    return own.folder / name


def run(words, env=None, before=()):
    """What a call gives: its exit status and what it wrote to both streams."""
    try:
        ran = subprocess.run([*before, PROGRAM, *map(str, words)], env=env or {}, capture_output=True, timeout=LONGEST)
    except subprocess.TimeoutExpired:
        raise Wrong(f"{words} with {env} doesn't end") from None
    return ran.returncode, ran.stdout, ran.stderr


def call(words, **refused):
    """The same of a call of which one is refused."""
    env = {name: str(value) for name, value in refused.items()}
    return run(words, {**env, "LD_PRELOAD": str(STUB)} if refused else {})


def tallied(words, **refused):
    """What a call gives, and beside it the blocks that it keeps, its starts and writes, and the allocations of each thread."""
    tally = own_file("tally")
    tally.unlink(missing_ok=True)
    given = call(words, TALLY=tally, **refused)
    if not tally.exists():
        raise Wrong(f"{words} with {refused}: {given}")
    left, starts, writes, _, *allocations = map(int, tally.read_text().split())
    return given, left, starts, writes, allocations


def all_of(judge, cases):
    """Judges all cases, as many at a time as it may, and tells how many there were."""
    cases = list(cases)
    with ThreadPoolExecutor(JOBS) as pool:
        try:
            for _ in pool.map(lambda case: judge(*case), cases):
                pass
        except Wrong:
            pool.shutdown(cancel_futures=True)
            raise
    return len(cases)


# ---- memory and threads


def status_of(outcome):
    return 1 if b"fault " in outcome else 3 if b"goes on" in outcome else 0


def refuse_one(words, expected, refused):
    """One allocation or start is refused: the program says so, or does what it does else; in any case it gives its memory back."""
    given, left, *_ = tallied(words, **refused)
    says_so = given == (2, b"", NO_MEMORY_IN_JSON if "json" in words else NO_MEMORY)
    # memory for the words themselves
    unread = given == (2, b"", NO_MEMORY_FOR_JSON if "json" in words else NO_MEMORY)
    if left or not (says_so or given == expected or (unread and refused.get("REFUSE", "").startswith("0:"))):
        raise Wrong(f"{words} with {refused}: {given}, {left} blocks are left")
    if "REFUSE_START" in refused and not says_so:
        raise Wrong(f"{words} with {refused}: {given}")


def refusals_of(program, more):
    """Each allocation of each thread and each start of one row, after the row itself. A worker asks for memory for what is printed alone, and
    with a reserve for none."""
    outcome = program.with_suffix(".out").read_bytes()
    words = ["run", program, "--input", program.with_suffix(".in"), "--workers", WORKERS, "--bound", "1000", *more]
    expected = call(words) if "json" in more else (status_of(outcome), outcome, b"")
    given, left, starts, _, allocations = tallied(words)
    prints = b"print" in program.read_bytes()
    asks = [count > 0 for count in allocations] == [True] + [prints and "--reserve" not in more] * WORKERS
    if given != expected or left or starts != WORKERS or not asks:
        raise Wrong(f"{words}: {given}, {left} blocks are left, {starts} starts, allocations {allocations}")
    for thread, count in enumerate(allocations):
        for number in range(1, count + 1):
            yield words, expected, {"REFUSE": f"{thread}:{number}"}
    for number in range(1, starts + 1):
        yield words, expected, {"REFUSE_START": number}


def files_refused(words):
    """Each allocation of a call that starts no thread, those for the files that it names among them."""
    expected = call(words)
    given, left, _, _, allocations = tallied(words)
    if given != expected or left or expected[::2] != (0, b"") or len(allocations) != 1 or not allocations[0]:
        raise Wrong(f"{words}: {given}, {left} blocks are left, allocations {allocations}, and else {expected}")
    for number in range(1, allocations[0] + 1):
        yield words, expected, {"REFUSE": f"0:{number}"}


def memory():
    rows = sorted((INPUTS / "rows").glob("*.pram"))
    cases = itertools.product(rows, [[], ["--reserve", "100,100"], ["--format", "json"]])
    count = all_of(refuse_one, itertools.chain.from_iterable(itertools.starmap(refusals_of, cases)))
    program = INPUTS / "changed.pram"
    calls = [["check", program], ["meaning", program, "--input", program.with_suffix(".in")]]
    calls += [[*words, "--format", "json"] for words in calls]
    files = all_of(refuse_one, itertools.chain.from_iterable(map(files_refused, calls)))
    programs = f"{count} allocations and starts of {len(rows)} programs, with a reserve, without, and as JSON"
    return f"{programs}, and {files} of calls that read files, are refused in turn"


# ---- texts


def broken(text):
    """Each front of a text, and every twentieth of its changes by one byte."""
    yield from (text[:end] for end in range(len(text)))
    for change in range(0, len(text) * 256, EVERY):
        at, byte = divmod(change, 256)
        yield text[:at] + bytes([byte]) + text[at + 1 :]


def is_refused(given):
    return given[:2] == (2, b"") and REFUSAL.fullmatch(given[2])


def judge_program(text):
    """Both that look at a program say the same of it."""
    file = own_file("text")
    file.write_bytes(text)
    checked, planned = call(["check", file]), call(["plan", file])
    accepted = checked[::2] == (0, b"") and re.fullmatch(rb"accepted cells [0-9]+ procs [0-9]+ rule [a-z]+\n", checked[1])
    shown = planned[::2] == (0, b"") and planned[1].startswith(b"bsp 1\n") and planned[1].endswith(b" halt\n")
    if not (accepted and shown or is_refused(checked) and checked == planned):
        raise Wrong(f"{text}: check {checked}, plan {planned}")


def judge_listing(text, values):
    file = own_file("text")
    file.write_bytes(text)
    given = call(["exec", file, "--input", values, "--workers", 2, "--bound", 100])
    ran = OUTCOME.fullmatch(given[1]) and given[::2] == (status_of(given[1]), b"")
    if not (ran or is_refused(given)):
        raise Wrong(f"{text}: {given}")


def many_sizes(count):
    """Sizes take processor time by their number, not by its square: in lines, in braces and in words of the call."""
    lines, file = "".join(f"# size n{size}={size}\n" for size in range(count)), own_file("sizes")
    file.write_text(lines + " ".join(f"{{n{size}}}" for size in range(0, count, 2)))
    given = [word for size in range(0, count, 8) for word in ("--size", f"n{size}={size + 1}")]
    filled = " ".join(str(size + (size % 8 == 0)) for size in range(0, count, 2))
    before = os.times().children_user
    expanded = run(["expand", file, *given])
    spent = os.times().children_user - before
    if expanded != (0, (lines + filled).encode(), b""):
        raise Wrong(f"{count} sizes: {expanded[0]} {expanded[2]}")
    if spent > SIZES_SECONDS:
        raise Wrong(f"{count} sizes take {spent:.1f} s of a processor")


def texts():
    many_sizes(SIZES)
    program, listing = INPUTS / "changed.pram", INPUTS / "broadcast.bsp"
    count = all_of(judge_program, ((text,) for text in broken(program.read_bytes())))
    values = listing.with_suffix(".in")
    count += all_of(judge_listing, ((text, values) for text in broken(listing.read_bytes())))
    return f"{count} fronts and changes of texts are refused or come to an outcome, and {SIZES} sizes are put in"


# ---- standard output


def fail_one(words, output, refused):
    """The write of that number fails, where each takes one byte: so many bytes are written, and the program says that it failed."""
    given = call(words, NARROW=1, **refused)
    if given != (2, output[: refused["REFUSE_WRITE"] - 1], NOT_WRITTEN):
        raise Wrong(f"{words} with {refused}: {given}")


def failures_of(words):
    """Each write of one call, after the call itself, which writes as much one byte at a time."""
    status, output, errors = call(words)
    given, _, _, writes, _ = tallied(words, NARROW=1)
    if errors or given != (status, output, b"") or writes != len(output):
        raise Wrong(f"{words}: {given} in {writes} writes")
    wide, _, _, writes, _ = tallied(words)
    for number in range(1, writes + 1):
        status, written, errors = call(words, REFUSE_WRITE=number)
        if (status, errors) != (2, NOT_WRITTEN) or not output.startswith(written) or len(written) >= len(output):
            raise Wrong(f"{words} with write {number} refused: {status}, {written}, {errors}")
    for number in range(1, len(output) + 1):
        yield words, output, {"REFUSE_WRITE": number}
        yield words, output, {"REFUSE_WRITE": number, "EMPTY": 1}


def streams():
    program, listing = INPUTS / "changed.pram", INPUTS / "broadcast.bsp"
    over_input = ["--input", program.with_suffix(".in")]
    by_workers = [*over_input, "--workers", 2]
    calls = [["check", program], ["plan", program], ["meaning", program, *over_input], ["run", program, *by_workers]]
    calls += [["trace", program, *by_workers], ["exec", listing, "--workers", 2, "--input", listing.with_suffix(".in")]]
    count = all_of(fail_one, itertools.chain.from_iterable(map(failures_of, calls)))
    return f"{count} writes fail in turn, just where they were refused"


# ---- blocks behind which nothing can be touched


def guard_one(words):
    """A call does the same where each block has pages of its own."""
    given, expected = run(words, {"LD_PRELOAD": str(GUARD)}), run(words)
    if given != expected:
        raise Wrong(f"{words} with guards: {given[0]} {given[2]}, and else {expected[0]} {expected[2]}")


def guarded_calls():
    for program in [*sorted((INPUTS / "rows").glob("*.pram")), *sorted(EXAMPLES.glob("*.pram"))]:
        given = [program, "--input", program.with_suffix(".in"), "--bound", "400"]
        for verb in (["meaning"], ["cost", "--lines"], ["rules"], ["run", "--workers", WORKERS], ["trace", "--workers", 2, "--svg"]):
            yield [*verb, *given]
        for form in (["--locals"], ["--format", "json"], ["--svg"], ["--flow"], ["--html"], ["--explain"]):
            yield ["steps", *given, *form]
        yield from ([verb, program] for verb in ("plan", "export"))
    changed = INPUTS / "changed.pram"
    for number, text in enumerate(broken(changed.read_bytes())):
        if number % EVERY == 0:
            file = FOLDER / f"guarded_{number}"
            file.write_bytes(text)
            yield ["check", file, "--explain"]


def guards():
    count = all_of(guard_one, ([it] for it in guarded_calls()))
    return f"{count} calls come to the same where nothing behind a block, or in one that was given back, can be touched"


# ---- long runs


def long_file(turns):
    file = own_file(f"long_{turns}")
    file.write_text(LONG.format(turns))
    return file


def long_outcome(turns):
    return "ended\ns[1..32] = " + " ".join(str(turns * i) for i in range(1, 33)) + "\n"


def come_through(workers, turns, before=()):
    """So many workers exchange once a turn, and come to what the last turn writes."""
    given = run(["run", long_file(turns), "--workers", workers], before=before)
    if given != (0, long_outcome(turns).encode(), b""):
        raise Wrong(f"{workers} workers {' '.join(before)}: {given}")


def come_to_one(workers, turns, times):
    """So many workers exchange once a turn, so often, and always come to what the last turn writes."""
    for _ in range(times):
        come_through(workers, turns)


def long_runs():
    come_to_one(4, 10000, 20)
    come_to_one(32, 20000, 10)
    return "4 workers come through 10,000 exchanges to one answer, twenty times, and 32 through 20,000, ten times"


# ---- runs that have to share, and runs that are stopped


def crowds():
    """All workers on one core, and more processes at once than there are cores."""
    core = ["taskset", "-c", str(min(os.sched_getaffinity(0)))]
    for workers in (2, 4, 32):
        come_through(workers, 2000, core)
    with ThreadPoolExecutor(32) as pool:
        for _ in pool.map(lambda workers: come_through(workers, 2000), [4] * 24 + [32] * 8):
            pass
    return "2, 4 and 32 workers on one core come through 2,000 exchanges, and so do those of 32 processes at once"


def stop_and_go(pick, turns):
    """A run that is stopped and let go on again and again."""
    output = own_file("stopped")
    with output.open("wb") as out:
        going = subprocess.Popen([PROGRAM, "run", str(long_file(turns)), "--workers", "4"], env={}, stdout=out)
        stops = 0
        until = time.monotonic() + LONGEST
        while going.poll() is None and time.monotonic() < until:
            time.sleep(pick.random() / 200)
            going.send_signal(signal.SIGSTOP)
            time.sleep(pick.random() / 500)
            going.send_signal(signal.SIGCONT)
            stops += 1
        if going.poll() is None:
            going.kill()
            raise Wrong("a run that is stopped and let go on doesn't end")
    if (going.returncode, output.read_text()) != (0, long_outcome(turns)):
        raise Wrong(f"a run that is stopped and let go on: {going.returncode} {output.read_text()}")
    return stops


def stops():
    pick = random.Random(1)
    count = sum(stop_and_go(pick, 20000) for _ in range(10))
    if count < 20:
        raise Wrong(f"runs are over before they are stopped, but for {count} times")
    return "ten runs by 4 workers come to one answer that are stopped and let go on all the time"


PARTS = {"memory": memory, "texts": texts, "streams": streams, "guards": guards, "long": long_runs, "crowds": crowds, "stops": stops}
OVER_C = {"memory", "streams", "guards"}


def main():
    names = sys.argv[2:] or [*PARTS]
    for made in (STUB, GUARD) if OVER_C & {*names} else ():
        text = INPUTS / f"{made.stem}.c"
        subprocess.run(["cc", "-O1", "-shared", "-fPIC", "-fno-builtin", "-o", made, text, "-ldl"], check=True)
    for name in names:
        print(f"as it must be: {PARTS[name]()}", flush=True)


try:
    main()
except Wrong as wrong:
    sys.exit(f"WRONG: {wrong}")
