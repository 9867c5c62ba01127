"""The cells `%%pram`, in a shell of IPython, where that is installed."""
import atexit
import importlib.util
import tempfile
import unittest
from pathlib import Path
from unittest import mock

import pramc

from .programs import COUNTS_ON, HALVED, HALVES, SHARE, SUM, SUM_N, TYPO

HAS_IPYTHON = importlib.util.find_spec("IPython") is not None
ENDED = "15\nended\na[1..4] = 15 8 7 1\n"


@unittest.skipUnless(HAS_IPYTHON, "there is no IPython")
class Cells(unittest.TestCase):
    @classmethod
    def setUpClass(cls):
        from IPython.core.interactiveshell import InteractiveShell

        place = tempfile.TemporaryDirectory()
        cls.addClassCleanup(place.cleanup)
        cls.folder = Path(place.name)
        with mock.patch.dict("os.environ", IPYTHONDIR=place.name):
            cls.shell = InteractiveShell.instance()
        atexit.unregister(cls.shell.atexit_operations)  # which would write to that folder when it is gone
        cls.shell.run_line_magic("load_ext", "pramc")

    def cell(self, line, text=SUM):
        """What a cell writes to both streams, and what it shows."""
        from IPython.utils.capture import capture_output

        with capture_output() as said:
            self.shell.run_cell_magic("pram", line, text)
        return said.stdout, said.stderr, [it.data for it in said.outputs]

    @property
    def value(self):
        return self.shell.user_ns["_pram"]

    def test_numbers_in_the_line(self):
        for line in ("run --input 5 2 7 1", "--input 5 2 7 1 --workers 2", "meaning --input 5 2 7 1"):
            self.assertEqual(self.cell(line), (ENDED, "", []))
            self.assertEqual(self.value, pramc.run(SUM, input=[5, 2, 7, 1]))
        self.assertEqual(self.cell("--input -3")[0], "-3\nended\na[1..4] = -3 0 0 0\n")

    def test_files_and_variables(self):
        file = self.folder / "sum.in"
        file.write_text("5 2 7 1")
        self.shell.user_ns["mine"] = [5, 2, 7, 1]
        self.shell.user_ns["known"] = pramc.run("rule crew; procs 1; shared a[1..4]; begin end", input=[5, 2, 7, 1])
        for line in (f"--input {file}", f"--input={file}", "--input mine", "--memory known"):
            self.assertEqual(self.cell(line), (ENDED, "", []), line)

    def test_no_input(self):
        self.assertEqual(self.cell(""), ("0\nended\na[1..4] = 0 0 0 0\n", "", []))

    def test_into(self):
        self.cell("cost --into cost --input 5 2 7 1")
        self.assertEqual((self.shell.user_ns["cost"].time, self.value.work), (11, 12))
        self.cell("--into=outcome")
        self.assertTrue(self.shell.user_ns["outcome"].ended)

    def test_values(self):
        rows = [
            ("check", SUM, pramc.check(SUM)), ("rules", SHARE, pramc.rules(SHARE)), ("steps --only m", SUM, pramc.steps(SUM)),
            ("trace --workers 2", SUM, pramc.trace(SUM, workers=2)),
            ("always --cells 1 --values 0..9", SUM, pramc.always(SUM, cells=1, values=(0, 9))),
            ("explore --permutations 3", SUM, pramc.explore(SUM, permutations=3)), ("plan", SUM, pramc.plan(SUM)),
            ("expand --size n=8", SUM_N, pramc.expand(SUM_N, sizes={"n": 8})),
            ("cost --sweep n=4..64*2", SUM_N, pramc.sweep(SUM_N, "n=4..64*2")), ("exec", pramc.plan(SUM), pramc.run(SUM))]
        for line, text, value in rows:
            said, err, _ = self.cell(line, text)
            self.assertEqual((self.value, err), (value, ""), line)
            self.assertTrue(said, line)

    def test_what_is_shown_is_what_is_written(self):
        said = "n 4 time 11 work 12 width 2 reads 7 writes 3 exchanges at most 9 ended\n"
        self.assertEqual(self.cell("cost --sweep n=4", SUM_N)[0], said)

    def test_a_fault(self):
        said, err, _ = self.cell("run --input 5 2 7 1", SHARE)
        self.assertEqual((said, self.value.fault.line), ("fault read-conflict a[1] line 9\n", 9))
        self.assertIn("for 1 <= i <= 4 pardo a[i] := a[1]; end", err)

    def test_a_refusal(self):
        said, err, _ = self.cell("check", TYPO)
        self.assertEqual(said, "")
        place = "cell:9:9\n  print aa[1];\n        ^\n"
        self.assertEqual(err, f'refused E6 UnknownName at 171\n{place}"aa" is not declared here; did you mean "a"?\n')
        self.assertEqual((self.value.number, self.value.place.column), ("E6", 9))

    def test_a_refusal_of_a_sweep(self):
        err = self.cell("cost --sweep n=4,8", SUM_N.replace("print a", "print aa"))[1]
        self.assertIn("cell:10:9\n", err)

    def test_not_ascii(self):
        self.assertIn("refused E1 NotAscii", self.cell("", "# é")[1])

    def test_words_that_are_refused(self):
        for line in ("--bound -3", "--nothing", "steps --html --svg", "nothing"):
            said, err, shown = self.cell(line)
            self.assertEqual((said, shown), ("", []))
            self.assertTrue(err and isinstance(self.value, pramc.Refusal), line)

    def test_words_for_the_cell(self):
        from IPython.core.error import UsageError

        self.shell.user_ns["wrong"] = [1.5]
        for line in ("--into", "--into 3", "--keep a.b", "--input 'x", "--input wrong", "--input", "--map 'a\0b'"):
            with self.subTest(line), self.assertRaises(UsageError):
                self.cell(line)

    def test_pictures(self):
        rows = [
            ("steps --svg --from 2", pramc.steps_figure(SUM, from_=2)), ("steps --flow --only a", pramc.flow_figure(SUM, only="a")),
            ("trace --svg", pramc.trace_figure(SUM))]
        for line, figure in rows:
            said, err, [shown] = self.cell(line)
            self.assertEqual((shown["image/svg+xml"], self.value, said, err), (figure.svg, figure, "", ""), line)

    def test_a_page(self):
        said, err, [shown] = self.cell("steps --html --input 5 2 7 1")
        self.assertTrue(shown["text/html"].startswith("<iframe "))
        self.assertEqual((said, err), ("", ""))
        self.assertIn("<title>", self.value.html)
        self.assertNotIn("/tmp/", self.value.html)

    def test_other_cells(self):
        self.cell("check --keep other", SUM)
        self.assertEqual(self.cell("compare other --permutations 4")[0], "inputs 24 same 24\n")
        self.shell.user_ns["right"] = HALVED
        self.assertIn("failed 4\n", self.cell("explore --cells 1 --values 0..3 --ensure right", HALVES)[0])
        self.assertEqual(self.value.failed, 4)

    def test_several_inputs(self):
        self.cell("check --keep other", SUM)
        self.assertEqual(self.cell("compare other --input 1 2 --input 3 --input 4 5")[0], "inputs 3 same 3\n")

    def test_seconds(self):
        self.cell("meaning --bound 4294967295 --seconds 1", COUNTS_ON)
        self.assertGreater(self.value.ended_behind, 0)

    def test_a_line_alone(self):
        from IPython.utils.capture import capture_output

        with capture_output() as said:
            self.shell.run_line_magic("pram", "explain E6")
        self.assertTrue(said.stdout.startswith("E6 UnknownName"))

    def test_there_is_no_program(self):
        from IPython.core.error import UsageError

        with mock.patch.dict("os.environ", PRAMC=str(self.folder / "nowhere")), self.assertRaises(UsageError):
            self.cell("")
