#!/usr/bin/env python3
"""Runs the notebook of the first hour from start to end, and the tests of the cells `%%pram`, by a Python that has Jupyter.

notebook_test.py PROGRAM [HTML]: what a cell writes has to stand in docs/TUTORIAL.md, or has to be what the cell's metadata say, which is
worked out by hand: `output` is all that it writes, or between two stars a part of it, `says` a part of what it writes to standard error,
and `shows` the kinds of what it shows. HTML is a file for the notebook as it came out, to be looked at. Where no Python here has Jupyter,
that is said, and the status is 77.
"""
import json
import os
import shutil
import subprocess
import sys
import tempfile
from pathlib import Path

TOP = Path(__file__).resolve().parent.parent
NOTEBOOK = TOP / "docs/notebooks/first_hour.ipynb"
TUTORIAL = (TOP / "docs/TUTORIAL.md").read_text()
NEEDED = "import IPython, ipykernel, nbconvert"
SKIPPED = 77
LONGEST = 600  # seconds of the whole, far more than it takes


def run(words, **how):
    done = subprocess.run(words, stdout=subprocess.PIPE, stderr=subprocess.STDOUT, text=True, timeout=LONGEST, **how)
    return done.returncode, done.stdout


def python_with_jupyter():
    """The first Python here that has what a notebook needs."""
    for it in (sys.executable, shutil.which("python3"), "/usr/bin/python3"):
        if it and Path(it).exists() and not run([it, "-c", NEEDED])[0]:
            return it
    print("there is no Python with IPython, ipykernel and nbconvert (on Debian: python3-ipykernel, jupyter-nbconvert)")
    sys.exit(SKIPPED)


def environment(python, program, folder):
    """Where the package, the program and that Python as a kernel are found, and nothing of the user's."""
    shutil.copytree(TOP / "python/pramc", folder / "package/pramc", ignore=shutil.ignore_patterns("bin", "__pycache__"))
    kernel = folder / "jupyter/kernels/python3"
    kernel.mkdir(parents=True)
    words = [python, "-m", "ipykernel_launcher", "-f", "{connection_file}"]
    (kernel / "kernel.json").write_text(json.dumps({"argv": words, "display_name": "Python 3", "language": "python"}))
    folders = {it: str(folder / it.lower()) for it in ("JUPYTER_CONFIG_DIR", "JUPYTER_DATA_DIR", "JUPYTER_RUNTIME_DIR", "IPYTHONDIR")}
    named = {"PYTHONPATH": str(folder / "package"), "PRAMC": str(program), "JUPYTER_PATH": str(folder / "jupyter")}
    return {**os.environ, **folders, **named, "PYTHONDONTWRITEBYTECODE": "1"}


def written(cell, stream):
    """What a cell writes to a stream, and on standard output also the value of its last line."""
    said = ["".join(it["text"]) for it in cell["outputs"] if it["output_type"] == "stream" and it["name"] == stream]
    values = [it["data"]["text/plain"] for it in cell["outputs"] if it["output_type"] == "execute_result" and stream == "stdout"]
    return "".join(said + ["".join(it) for it in values])


def shown(cell):
    """The kinds of what a cell shows, but its text."""
    return sorted(kind for it in cell["outputs"] if it["output_type"] == "display_data" for kind in it["data"] if kind != "text/plain")


def is_written(said, expected):
    """Whether that is all that is expected, or has the part between stars; or stands in the tutorial, where nothing is said of it."""
    if expected is None:
        return said in TUTORIAL
    return expected.strip("*") in said if expected.startswith("*") else said == expected


def wrong(cell):
    """What is wrong with what a cell came to, if anything is."""
    expected = cell["metadata"].get("pramc", {})
    out, err = written(cell, "stdout"), written(cell, "stderr")
    says = expected.get("says", "")
    silent = not cell["outputs"] and not cell["source"][0].startswith("%load_ext")
    said = is_written(out, expected.get("output")) and says in err and bool(says) == bool(err)
    if said and not silent and shown(cell) == expected.get("shows", []):
        return []
    return [f"{''.join(cell['source'])}\n-> {out}\n{err}\n{shown(cell)}, and not {expected or 'what stands in the tutorial'}"]


def executed(python, folder, around):
    """The cells of the notebook as they came out."""
    words = [python, "-m", "nbconvert", "--to", "notebook", "--execute", "--output-dir", folder, "--output", "done.ipynb", NOTEBOOK]
    status, said = run(words, cwd=folder, env=around)
    if status:
        sys.exit(f"the notebook stops:\n{said[-3000:]}")
    return [it for it in json.loads((folder / "done.ipynb").read_text())["cells"] if it["cell_type"] == "code"]


def main():
    program = Path(sys.argv[1]).resolve()
    python = python_with_jupyter()
    with tempfile.TemporaryDirectory() as name:
        folder = Path(name)
        around = environment(python, program, folder)
        status, said = run([python, "-m", "unittest", "tests.test_magic"], cwd=TOP / "python", env=around)
        cells = executed(python, folder, around)
        if sys.argv[2:]:
            html = Path(sys.argv[2]).resolve()
            words = ["--to", "html", "--output-dir", html.parent, "--output", html.name, folder / "done.ipynb"]
            run([python, "-m", "nbconvert", *words], env=around)
    found = [wrong(it) for it in cells]
    print(said, *sum(found, []), sep="\n")
    print(f"notebook: {found.count([])} of {len(found)} cells come out as they should")
    sys.exit(1 if status or any(found) else 0)


if __name__ == "__main__":
    main()
