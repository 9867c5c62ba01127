#!/usr/bin/env python3
"""Installs the package for Python in an empty folder, and has its tests use it.

python_test.py PROGRAM: by pip, where it has setuptools to build with, and else as gate/wheel.py makes it; nothing is fetched. The tests
are those of python/tests, and what python/README.md shows. Its version has to be the newest of CHANGELOG.md. All is in a temporary folder.
"""
import os
import re
import shutil
import subprocess
import sys
import tempfile
import zipfile
from pathlib import Path

TOP = Path(__file__).resolve().parent.parent
SOURCES = TOP / "python"
PIP = [sys.executable, "-m", "pip", "install", "-q", "--no-index", "--no-build-isolation", "--no-deps", "--disable-pip-version-check"]
BUILDER = """
import setuptools, pip
version = tuple(int(it) for it in setuptools.__version__.split(".")[:2])
assert version >= (61, 0)
if version < (70, 1):
    import wheel
"""
LONGEST = 900  # seconds of the tests, far more than they take


def run(words, **how):
    """The exit status of a command, and what it writes."""
    done = subprocess.run(words, stdout=subprocess.PIPE, stderr=subprocess.STDOUT, text=True, timeout=LONGEST, **how)
    return done.returncode, done.stdout


def has_builder():
    """Whether pip is here, and what it builds with: setuptools, which before version 70.1 needs wheel."""
    return not run([sys.executable, "-c", BUILDER])[0]


def by_pip(folder, work):
    """Installs a copy of the sources, since a build leaves files beside them."""
    copy = work / "sources"
    shutil.copytree(SOURCES, copy, ignore=shutil.ignore_patterns("build", "*.egg-info", "__pycache__", "bin"))
    status, said = run([*PIP, "--target", folder, copy], env={**os.environ, "PIP_ROOT_USER_ACTION": "ignore"})
    return said if status else None


def by_wheel(folder, work, program):
    """Unpacks the wheel, and leaves its program out: the one that is tried is named by PRAMC."""
    status, said = run([sys.executable, TOP / "gate/wheel.py", program, work, "2.34"])
    if status:
        return said
    with zipfile.ZipFile(said.strip()) as wheel:
        wheel.extractall(folder, [it for it in wheel.namelist() if not it.startswith("pramc/bin/")])
    return None


def versions():
    """What is wrong with the version of the package, if anything is."""
    newest = re.search(r"^## (\d+\.\d+\.\d+)", (TOP / "CHANGELOG.md").read_text(), re.M)[1]
    here = re.search(r'^version = "(.*)"$', (SOURCES / "pyproject.toml").read_text(), re.M)[1]
    return None if here == newest else f"python/pyproject.toml has version {here}, and CHANGELOG.md {newest}"


def tested(folder, work, program):
    """The exit status of the tests over the package in that folder, and what they say."""
    place = work / "tried"
    shutil.copytree(SOURCES / "tests", place / "tests", ignore=shutil.ignore_patterns("__pycache__"))
    shutil.copy(SOURCES / "README.md", place)
    environment = {**os.environ, "PYTHONPATH": str(folder), "PRAMC": str(program), "PYTHONDONTWRITEBYTECODE": "1"}
    status, said = run([sys.executable, "-c", "import pramc; print(pramc.__file__)"], cwd=place, env=environment)
    if status or Path(said.strip()).parent != folder / "pramc":
        return 1, f"another package is tried: {said}"
    return run([sys.executable, "-m", "unittest", "discover", "-t", ".", "-s", "tests"], cwd=place, env=environment)


def main():
    program = Path(sys.argv[1]).resolve()
    with tempfile.TemporaryDirectory() as name:
        work = Path(name).resolve()
        folder = work / "empty"
        folder.mkdir()
        way = "pip" if has_builder() else "its wheel"
        wrong = versions() or (by_pip(folder, work) if way == "pip" else by_wheel(folder, work, program))
        if wrong:
            sys.exit(wrong)
        status, said = tested(folder, work, program)
    print(said)
    print(f"python: installed by {way}, {re.search(r'Ran (.*) tests', said)[1] if 'Ran ' in said else 'no'} tests")
    sys.exit(1 if status else 0)


if __name__ == "__main__":
    main()
