#!/usr/bin/env python3
"""Has the program write to a file that takes so many bytes and no more, for each number of them, and looks at what it says.

cut_off.py PROGRAM: the file has just that beginning of the text, standard error the line of E17, in words or as JSON, and the exit status
is 2; where the text fits, it stands there whole, nothing is said, and the status is that of the call. The texts are worked out by hand,
or, where a row has none, what the call writes where nothing is full. A file is limited by RLIMIT_FSIZE, so that a write behind the limit
fails as one to a full disk does.
"""
import resource
import signal
import subprocess
import sys
import tempfile
from pathlib import Path

PROGRAM = Path(sys.argv[1]).resolve()
LINE = b"refused E17 WriteFailed\n"
LINE_OF_JSON = (
    b'{"message":"standard output failed: what stands there is a beginning of the text",'
    b'"name":"WriteFailed","refused":"E17"}\n'
)

SMALL = b"rule crew; procs 1;\nshared s;\nbegin\nprint s;\nend\n"
SUM = b"rule crew; procs 1;\nvar i; var t;\nbegin\nfor i := 1 to 10 do\nt := t + i;\nend\nprint t;\nend\n"
SUMMED = b"55\nended\n"
# One write, which goes with an exchange of its own, and the close behind it.
WRITE = b"rule crew; procs 2;\nshared a[1..2];\nbegin\na[1] := 1;\nend\n"
TRACE = b"1 send sent 3 0 received 3 0 h 3\n2 close sent 0 0 received 0 0 h 0\n"
# Runs that end, fault and go on, within six statements.
PRINTS = b"rule crew;procs 1;shared s;shared a[0..2];begin print s;print -s;end"
PRINTED = b"-7\n7\nended\ns = -7\na[0..2] = 1 2 3\n"
CONFLICT = b"rule crew;procs 2;shared a[0..1];begin print 5;\nfor 1<=i<=2 pardo a[1]:=i;end end"
FAULT = b"5\nfault write-conflict a[1] line 2\n"
ENDLESS = b"rule crew;procs 1;begin print 1;while 1 do print 2;end end"
GOES_ON = b"1\n2\n2\ngoes on\n"

# A program, its input, words, the text if it was worked out, the exit status, and what is told where the file is full.
ROWS = [
    (SUM, b"", "--version", b"pramc 1.10.0\n", 0, LINE),
    (SUM, b"", "run program", SUMMED, 0, LINE),
    *((SUM, b"", f"{verb} program", None, 0, LINE) for verb in ("plan", "rules", "steps")),
    (WRITE, b"", "trace program --workers 2 --bound 9", TRACE, 0, LINE),
    (PRINTS, b"-7 1 2 3", "meaning program --input input --bound 6", PRINTED, 0, LINE),
    (CONFLICT, b"", "meaning program --bound 6", FAULT, 1, LINE),
    (ENDLESS, b"", "meaning program --bound 6", GOES_ON, 3, LINE),
    *(
        (SMALL, b"", f"{verb} program --format json", None, 0, LINE_OF_JSON)
        for verb in ("check", "meaning", "cost", "rules", "steps", "trace")
    ),
]


def written(words, room, folder):
    """What a call leaves in a file that takes so many bytes, what it says on standard error, and its exit status."""
    file = Path(folder, "output")
    before = resource.getrlimit(resource.RLIMIT_FSIZE)
    with file.open("wb") as output:
        resource.setrlimit(resource.RLIMIT_FSIZE, (room, before[1]))
        try:
            how = {"cwd": folder, "stdout": output, "stderr": subprocess.PIPE, "restore_signals": False}
            going = subprocess.Popen([PROGRAM, *words.split()], **how)
        finally:
            resource.setrlimit(resource.RLIMIT_FSIZE, before)
    _, errors = going.communicate(timeout=60)
    return file.read_bytes(), errors, going.returncode


def wrong_rooms(words, whole, status, line, folder):
    """The numbers of bytes for which a call says something else than that they were too few, or enough."""
    for room in range(len(whole) + 1):
        expected = (whole, b"", status) if room == len(whole) else (whole[:room], line, 2)
        if (found := written(words, room, folder)) != expected:
            yield f"pramc {words}, {room} bytes: {found}"


def tried(program, values, words, whole, status, line):
    """How many bytes a row has, and what is wrong with it."""
    with tempfile.TemporaryDirectory() as folder:
        Path(folder, "program").write_bytes(program)
        Path(folder, "input").write_bytes(values)
        if whole is None:
            whole = subprocess.run([PROGRAM, *words.split()], cwd=folder, capture_output=True, timeout=60).stdout
        found = list(wrong_rooms(words, whole, status, line, folder))
    return len(whole), found if whole else [f"pramc {words} writes nothing"]


def main():
    signal.signal(signal.SIGXFSZ, signal.SIG_IGN)
    found = [tried(*row) for row in ROWS]
    for _, wrong in found:
        print(*wrong[:3], sep="\n", end="\n" * bool(wrong))
    right = sum(not wrong for _, wrong in found)
    print(f"cut off: {right} of {len(ROWS)} texts, behind each of {sum(size for size, _ in found)} bytes, are told to be so")
    sys.exit(right != len(ROWS) or not ROWS)


if __name__ == "__main__":
    main()
