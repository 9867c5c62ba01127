#!/usr/bin/env python3
"""Writes the package for Python with the program in it, as a wheel.

wheel.py PROGRAM FOLDER GLIBC: FOLDER gets pramc-VERSION-py3-none-manylinux_GLIBC_x86_64.whl, by the version that the program says of
itself. GLIBC is the version of the C library that it needs, as 2.34. Of one program and one state of python/ it is the same bytes: each
time in it is SOURCE_DATE_EPOCH, else that of the version's day in CHANGELOG.md.
"""
import base64
import hashlib
import os
import re
import subprocess
import sys
import time
import zipfile
from calendar import timegm
from pathlib import Path

TOP = Path(__file__).resolve().parent.parent
SOURCES = TOP / "python"
EARLIEST = timegm((1980, 1, 1, 0, 0, 0))  # before that a zip file has no time
PLAIN, EXECUTABLE = 0o100644, 0o100755


def version_of(program):
    said = subprocess.run([program, "--version"], capture_output=True, text=True, check=True, timeout=60).stdout
    return re.fullmatch(r"pramc (\S+)\n", said)[1]


def day_of(version):
    """The second at which a version's day begins."""
    if epoch := os.environ.get("SOURCE_DATE_EPOCH"):
        return int(epoch)
    found = re.search(rf"^## {re.escape(version)}, (\d+-\d+-\d+)$", (TOP / "CHANGELOG.md").read_text(), re.M)
    if not found:
        sys.exit(f"CHANGELOG.md has no version {version}")
    return timegm(time.strptime(found[1], "%Y-%m-%d"))


def metadata(version):
    """What installers read of the package, by python/pyproject.toml."""
    said = dict(re.findall(r'^(description|requires-python) = "(.*)"$', (SOURCES / "pyproject.toml").read_text(), re.M))
    fields = [("Metadata-Version", "2.1"), ("Name", "pramc"), ("Version", version), ("Summary", said["description"]), ("License", "MIT"),
              ("Requires-Python", said["requires-python"]), ("Description-Content-Type", "text/markdown")]
    return "".join(f"{name}: {value}\n" for name, value in fields) + "\n" + (SOURCES / "README.md").read_text()


def contents(program, version, tag):
    """The files of the wheel but its record, in their order: names, modes and bytes."""
    package = sorted([*SOURCES.glob("pramc/*.py"), SOURCES / "pramc/py.typed"])
    yield from ((f"pramc/{it.name}", PLAIN, it.read_bytes()) for it in package)
    yield "pramc/bin/pramc", EXECUTABLE, Path(program).read_bytes()
    info = f"pramc-{version}.dist-info"
    wheel = f"Wheel-Version: 1.0\nGenerator: gate/wheel.py\nRoot-Is-Purelib: false\nTag: {tag}\n"
    entries = "[console_scripts]\npramc = pramc.program:main\n"
    yield f"{info}/LICENSE", PLAIN, (TOP / "LICENSE").read_bytes()
    for name, text in (("METADATA", metadata(version)), ("WHEEL", wheel), ("entry_points.txt", entries)):
        yield f"{info}/{name}", PLAIN, text.encode()


def record(files, name):
    """The checksums of the files, as a wheel has them."""
    lines = []
    for file, _, content in files:
        digest = base64.urlsafe_b64encode(hashlib.sha256(content).digest()).decode().rstrip("=")
        lines.append(f"{file},sha256={digest},{len(content)}\n")
    return name, PLAIN, ("".join(lines) + f"{name},,\n").encode()


def write(file, files, seconds):
    when = time.gmtime(max(seconds, EARLIEST))[:6]
    with zipfile.ZipFile(file, "w", zipfile.ZIP_DEFLATED, compresslevel=9) as archive:
        for name, mode, content in files:
            entry = zipfile.ZipInfo(name, when)
            entry.create_system = 3  # Unix, so that modes count
            entry.external_attr = mode << 16
            entry.compress_type = zipfile.ZIP_DEFLATED
            archive.writestr(entry, content)


def main():
    program, folder, glibc = sys.argv[1:]
    version = version_of(program)
    tag = f"py3-none-manylinux_{glibc.replace('.', '_')}_x86_64"
    files = list(contents(program, version, tag))
    files.append(record(files, f"pramc-{version}.dist-info/RECORD"))
    file = Path(folder, f"pramc-{version}-{tag}.whl")
    write(file, files, day_of(version))
    print(file)


if __name__ == "__main__":
    main()
