"""Programs of the tutorial and of the page on the language, whose runs stand there; and how the program itself is called."""
import os
import subprocess

SUM = """rule erew; procs 4;
shared a[1..4]; var m;
begin
  m := 4;
  while m > 1 do
    m := m div 2;
    for 1 <= i <= m pardo a[i] := a[2 * i - 1] + a[2 * i]; end
  end
  print a[1];
end
"""
SUM_IN = [5, 2, 7, 1]
SHARE = SUM.replace("  print a[1];\n", "  for 1 <= i <= 4 pardo a[i] := a[1]; end\n")
TYPO = SUM.replace("print a", "print aa")
SUM_N = "# size n = 4\n" + SUM.replace("procs 4", "procs {n div 2}").replace("1..4", "1..{n}").replace("m := 4", "m := {n}")
SCATTER = "rule erew; procs 3; shared a[0..2];\nbegin\n  for 0 <= i <= 2 pardo\n    a[a[i]] := i;\n  end\nend\n"
GATHER = SCATTER.replace("rule erew", "rule crew").replace("a[a[i]] := i", "a[i] := a[a[i]]")
HALVES = (
    "rule crew; procs 2; shared whole; shared part[1..2];\nbegin\n"
    "  for 1 <= i <= 2 pardo\n    part[i] := (whole + i) div 2;\n  end\nend\n")
EVEN = "rule crew; procs 1; shared whole;\nbegin\n  print whole mod 2 = 0;\nend\n"
HALVED = (
    "rule crew; procs 1; shared opening_whole; shared part[1..2];\nbegin\n"
    "  print part[1] + part[2] = opening_whole and part[1] = part[2];\nend\n")
DOUBLES = (
    "rule erew; procs 4; shared a[1..8]; shared b[1..4];\nbegin\n  for 1 <= i <= 4 pardo\n"
    "    b[i] := a[2 * i - 1] + a[2 * i];\n  end\nend\n")
OPEN = "rule crew; procs 9; shared s;\nbegin\n  for 1 <= i <= s pardo s := 1; end\nend\n"
NEXT = "rule crew; procs 1; shared next[1..8];\nbegin\nend\n"
COUNTS_ON = "rule crew; procs 1; shared s; var m;\nbegin\n  while 1 do m := m + 1; end\nend\n"
OWED = (
    "rule erew; procs 4;\nshared a[1..4]; var x; var m;\nbegin\n  m := a[1];\n  for x := 2 to 4 do\n"
    "    if a[x] > m then m := a[x]; end\n  end\n  print m;\nend\n")
ADA = (
    "rule erew; procs 4;\nshared a[1..4]; shared b[1..4]; var t;\nbegin\n  for 1 <= i <= 4 pardo b[i] := a[i]; end\n"
    "  for t := 1 to 3 do\n    for 1 <= i <= 1 pardo local x; local y;\n      x := b[1]; y := b[t + 1];\n"
    "      if y > x then b[1] := y; end\n    end\n  end\n  print b[1];\nend\n")
BEN = (
    "rule erew; procs 4;\nshared a[1..4]; shared b[1..2];\nbegin\n  for 1 <= i <= 2 pardo local x; local y;\n"
    "    x := a[2 * i - 1]; y := a[2 * i];\n    if y > x then b[i] := y; end\n  end\n"
    "  if b[2] > b[1] then b[1] := b[2]; end\n  print b[1];\nend\n")


def called(words, text=b""):
    """The exit status and the two streams of a call of the program, beside the package."""
    done = subprocess.run([os.environ["PRAMC"], *words], input=text, capture_output=True, timeout=60)
    return done.returncode, done.stdout.decode(), done.stderr.decode()
