"""Which program is called, and what is said where there is none; and that the calls have each option of their commands."""
import dataclasses
import inspect
import os
import shutil
import subprocess
import sys
import tempfile
import typing
import unittest
from concurrent.futures import ThreadPoolExecutor
from pathlib import Path
from unittest import mock

import pramc

from .programs import SUM, SUM_IN, called

PROGRAM = os.environ["PRAMC"]
PACKAGE = Path(pramc.__file__).parent


def script(file, text):
    """A program of the shell in a file."""
    file.write_text(f"#!/bin/sh\n{text}\n")
    file.chmod(0o755)
    return str(file)


class Finding(unittest.TestCase):
    def setUp(self):
        place = tempfile.TemporaryDirectory()
        self.addCleanup(place.cleanup)
        self.folder = Path(place.name)

    def found(self, **environment):
        with mock.patch.dict(os.environ, environment):
            return pramc.program()

    def test_by_the_variable(self):
        other = script(self.folder / "pramc", "exit 0")
        self.assertEqual(self.found(PRAMC=PROGRAM, PATH=str(self.folder)), os.path.abspath(PROGRAM))
        self.assertEqual(self.found(PRAMC=other), other)

    def test_by_the_path(self):
        other = script(self.folder / "pramc", "exit 0")
        self.assertEqual(self.found(PRAMC="", PATH=str(self.folder)), other)

    def test_beside_the_package(self):
        shutil.copytree(PACKAGE, self.folder / "pramc", ignore=shutil.ignore_patterns("bin", "__pycache__"))
        (self.folder / "pramc/bin").mkdir()
        other = script(self.folder / "pramc/bin/pramc", "echo pramc 0.0.0")
        ask = "import pramc; print(pramc.program(), pramc.version())"
        said = subprocess.run([sys.executable, "-B", "-c", ask], cwd=self.folder, capture_output=True, text=True)
        self.assertEqual(said.stdout, f"{other} 0.0.0\n", said.stderr)

    def test_there_is_none(self):
        plain = self.folder / "plain"
        plain.write_text("")
        for environment in ({"PRAMC": str(self.folder / "nowhere")}, {"PRAMC": str(plain)}, {"PRAMC": str(self.folder)},
                            {"PRAMC": "", "PATH": str(self.folder)}):
            with self.subTest(environment), mock.patch.dict(os.environ, environment), self.assertRaises(pramc.ProgramMissing):
                pramc.run(SUM)

    def test_it_fails(self):
        rows = ["exit 9", "kill -9 $$", "echo '{'; exit 0", "exit 2", "echo '{}'; echo '{}'; exit 0", "exit 0"]
        for text in rows:
            with self.subTest(text), mock.patch.dict(os.environ, PRAMC=script(self.folder / "other", text)):
                with self.assertRaises(pramc.ProgramFailed):
                    pramc.check(SUM)
                if text == "exit 0":
                    with self.assertRaises(pramc.ProgramFailed):
                        pramc.steps(SUM)

    def test_it_can_not_be_started(self):
        broken = self.folder / "broken"
        broken.write_bytes(b"\x7fELF")
        broken.chmod(0o755)
        with mock.patch.dict(os.environ, PRAMC=str(broken)), self.assertRaises(pramc.ProgramFailed):
            pramc.run(SUM)

    def test_one_call_and_no_file_is_left(self):
        count = self.folder / "count"
        counting = script(self.folder / "counting", f'echo >> {count}; exec {PROGRAM} "$@"')
        made = self.folder / "made"
        made.mkdir()
        with mock.patch.dict(os.environ, PRAMC=counting, TMPDIR=str(made)), mock.patch.object(tempfile, "tempdir", None):
            pramc.run(SUM, input=SUM_IN)
        self.assertEqual((count.read_text(), list(made.iterdir())), ("\n", []))

    def test_calls_side_by_side(self):
        with ThreadPoolExecutor(8) as pool:
            found = list(pool.map(lambda it: pramc.run(SUM, input=[it]).output, range(40)))
        self.assertEqual(found, [(it,) for it in range(40)])


# Options that have another keyword, or none: what is told always, how it is told, and what other calls are for.
OTHERWISE = {
    "check": {}, "meaning": {}, "run": {}, "rules": {}, "explore": {}, "always": {},
    "cost": {"sweep": None, "svg": None}, "trace": {"lines": None, "svg": None, "outcome": None},
    "compare": {"input": "inputs"},
    "steps": {"from": "from_", "svg": None, "flow": None, "html": None, "locals": None, "columns": None, "only": None}}


class Signatures(unittest.TestCase):
    def options(self, command):
        """The options that the program says a command takes."""
        said = called([command, "--help"])[2]
        words = [line.split()[0] for line in said.splitlines() if line.strip().startswith("--")]
        return [it[2:] for it in words if it not in ("--format", "--explain", "--help")]

    def test_each_option_is_a_keyword(self):
        for command, otherwise in OTHERWISE.items():
            taken = inspect.signature(getattr(pramc, command)).parameters
            options = self.options(command)
            self.assertIn("size", options, command)
            for option in options:
                keyword = otherwise.get(option, "sizes" if option == "size" else option.replace("-", "_"))
                with self.subTest(command=command, option=option):
                    self.assertTrue(keyword is None or keyword in taken)

    def test_each_name_has_a_text_and_hints(self):
        for name in pramc.__all__:
            it = getattr(pramc, name)
            self.assertTrue(it.__doc__, name)
            if inspect.isfunction(it):
                hints = typing.get_type_hints(it)
                self.assertEqual({*hints}, {*inspect.signature(it).parameters, "return"}, name)
            elif dataclasses.is_dataclass(it):
                self.assertTrue(it.__dataclass_params__.frozen, name)

    def test_nothing_of_ipython_is_imported(self):
        ask = "import sys, pramc; print([it for it in sys.modules if it.split('.')[0] in ('IPython', 'ipykernel')])"
        done = subprocess.run([sys.executable, "-B", "-c", ask], env=os.environ, capture_output=True, text=True)
        self.assertEqual(done.stdout, "[]\n", done.stderr)
