#!/usr/bin/env python3
"""The release: the program, packed, and the checksums of what it was proved and built of.

release.py write PROGRAM    packs the program into release/ (gate/dist.sh), and writes release/SOURCES
release.py check [PROGRAM]  whether release/SOURCES is of the sources of this checkout, and the program, where it was built of these by the
                            same kit, byte for byte that of the release; else the status is 1
release.py tell PROGRAM     says the same of the program, whatever it is

SOURCES has the line of `rt version`, and then, as `sha256sum` writes them, the checksums of the program and of each file that its build
reads.
"""
import hashlib
import os
import subprocess
import sys
import tempfile
from pathlib import Path

from build import files_read
from uses import TOP, with_those_below

RELEASE = TOP / "release"
SOURCES = RELEASE / "SOURCES"
PROGRAM = "command_main"


def sum_of(file):
    return hashlib.sha256(Path(file).read_bytes()).hexdigest()


def kit():
    return subprocess.run(["rt", "version"], capture_output=True, text=True, check=True).stdout.strip()


def version_of(program):
    said = subprocess.run([program, "--version"], capture_output=True, text=True, check=True).stdout
    return said.removeprefix("pramc ").strip()


def packed(version):
    return f"pramc-{version}-x86_64-linux"


def sums_of_sources():
    """A line for each file that a build of the program reads, ordered by name."""
    crates = with_those_below([PROGRAM])
    files = [TOP / "HANDLES", TOP / "crates.txt", *(it for crate in crates for it in files_read(crate, crate == PROGRAM))]
    names = sorted((it.relative_to(TOP).as_posix() for it in files), key=os.fsencode)
    return [f"{sum_of(TOP / it)}  {it}" for it in names]


def write(program):
    version = version_of(program)
    name = packed(version)
    with tempfile.TemporaryDirectory() as folder:
        subprocess.run(["bash", TOP / "gate/dist.sh", program, folder], check=True, stdout=subprocess.DEVNULL)
        archive = (Path(folder) / f"{name}.tar.xz").read_bytes()
    RELEASE.mkdir(exist_ok=True)
    for it in RELEASE.glob("pramc-*.tar.xz"):
        it.unlink()
    (RELEASE / f"{name}.tar.xz").write_bytes(archive)
    lines = [f"# {kit()}", f"{sum_of(program)}  {name}/bin/pramc", *sums_of_sources()]
    SOURCES.write_text("".join(f"{it}\n" for it in lines))
    print(f"release/{name}.tar.xz: {len(archive):,} bytes; release/SOURCES: {len(lines) - 2} files")


def wrong_sources():
    """Why the release is not of the sources of this checkout, or nothing."""
    if not SOURCES.exists():
        return "there is no release/SOURCES"
    listed, here = SOURCES.read_text().splitlines()[2:], sums_of_sources()
    if listed == here:
        return None
    others = {it[66:] for it in {*listed} ^ {*here}}
    return f"the release is not of these sources: {min(others, key=os.fsencode, default='their order')} is not as it says"


def first_other(ours, other):
    """Where two programs differ first."""
    at = next((at for at, (one, two) in enumerate(zip(ours, other)) if one != two), min(len(ours), len(other)))
    return f"of {len(ours):,} and {len(other):,} bytes that at {at:,} is the first other one"


def wrong_program(program):
    """Why the program, built of the sources of the release, isn't that of the release, or nothing; and what else there is to say."""
    with tempfile.TemporaryDirectory() as folder:
        file = Path(folder) / "pramc"
        done = subprocess.run(["sh", TOP / "gate/program.sh", "release", file], capture_output=True, text=True)
        if done.returncode:
            return done.stderr.strip(), None
        listed, released, built = SOURCES.read_text().splitlines()[0].removeprefix("# "), file.read_bytes(), Path(program).read_bytes()
    if built == released:
        return None, f"{program} is byte for byte the program of the release"
    other = f"{program} has other bytes than the program of the release: {first_other(built, released)}"
    return (None, f"{other}, which was built by {listed}") if listed != kit() else (other, None)


def check(program=None):
    wrong, said = wrong_sources(), "release: its sources are those of this checkout"
    if program and not wrong:
        wrong, said = wrong_program(program)
    print(f"{wrong}: make release" if wrong else said)
    sys.exit(bool(wrong))


def tell(program):
    wrong, said = wrong_sources(), None
    if not wrong:
        wrong, said = wrong_program(program)
    print(wrong or said)


if __name__ == "__main__":
    {"write": write, "check": check, "tell": tell}[sys.argv[1]](*sys.argv[2:])
