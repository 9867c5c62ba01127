"""Each exception, with what it says; and hostile texts, of which it says what the program says of them in words."""
import tempfile
import unittest
from pathlib import Path

import pramc

from .programs import COUNTS_ON, NEXT, SHARE, SUM, SUM_IN, SUM_N, TYPO, called

TYPO_SAID = """refused E6 UnknownName at 171
-:9:9
  print aa[1];
        ^
"aa" is not declared here; did you mean "a"?"""
NO_SIZE_LINE = "this is a comment and no size line"  # which is told where explanations are asked for, and not as JSON
BODY = "rule crew; procs 1; shared s; begin {} end"


class Refusals(unittest.TestCase):
    def refusal(self, *words, **options):
        with self.assertRaises(pramc.Refused) as caught:
            pramc.run(*words, **options)
        return caught.exception.refusal

    def test_a_name(self):
        with self.assertRaises(pramc.Refused) as caught:
            pramc.check(TYPO)
        self.assertEqual(str(caught.exception), TYPO_SAID)
        refusal = caught.exception.refusal
        self.assertEqual((refusal.number, refusal.name, refusal.offset, refusal.meant), ("E6", "UnknownName", 171, "a"))
        self.assertEqual((refusal.line, refusal.column, refusal.place.column), (9, 9, 9))

    def test_a_file_is_named(self):
        with tempfile.TemporaryDirectory() as folder:
            file = Path(folder, "typo.pram")
            file.write_text(TYPO)
            for call in (pramc.check, pramc.steps_figure):
                with self.assertRaises(pramc.Refused) as caught:
                    call(file)
                self.assertEqual(str(caught.exception), TYPO_SAID.replace("-:9", f"{file}:9"))
                self.assertEqual(caught.exception.refusal.place.file, str(file))

    def test_a_file_that_is_not_there(self):
        with self.assertRaises(FileNotFoundError):
            pramc.check(Path("nowhere.pram"))

    def test_not_ascii(self):
        for text in (BODY.format("é"), BODY.format("\ud800"), b"\xff", "# \u202e", "∀"):
            with self.assertRaises(pramc.NotAscii) as caught:
                pramc.run(text)
            refusal = caught.exception.refusal
            found = text if isinstance(text, bytes) else text.encode("utf-8", "surrogatepass")
            self.assertEqual(refusal.offset, next(at for at, it in enumerate(found) if it > 127))

    def test_a_picture_of_what_is_not_ascii(self):
        for draw in (pramc.steps_page, pramc.flow_figure, pramc.trace_figure, pramc.plan, pramc.expand):
            with self.assertRaises(pramc.NotAscii):
                draw("é")

    def test_details(self):
        self.assertEqual(self.refusal("rule crew; procs 0; begin end").detail, "procs")
        self.assertEqual(self.refusal("# size n = 8\nrule crew; procs {m};").detail, "unknown")
        self.assertEqual(self.refusal("rule crew; procs 8 shared").expected, ('";"',))

    def test_a_second_place(self):
        refusal = self.refusal(BODY.format("if s then s := 1;"))
        self.assertEqual(refusal.notes[0].place.column, 37)

    def test_input(self):
        refusal = self.refusal(SUM, input=[1, 2, 3, 4, 5])
        self.assertEqual((refusal.number, refusal.name), ("E11", "InputTooLong"))
        self.assertIn("there are 5 values", str(refusal))

    def test_memory(self):
        refusal = self.refusal(SUM, memory={"a": SUM_IN, "q": [1]})
        self.assertEqual((refusal.number, refusal.place.file, refusal.place.line), ("E6", "memory", 2))

    def test_a_program_of_where(self):
        with self.assertRaises(pramc.Refused) as caught:
            pramc.explore(SUM, cells=1, values=(0, 1), where="rule crew; procs 1; begin print x; end")
        self.assertEqual((caught.exception.refusal.place.file, caught.exception.refusal.column), ("where", 33))

    def test_a_sweep_that_is_refused(self):
        with self.assertRaises(pramc.Refused) as caught:
            pramc.sweep(SUM_N.replace("print a", "print aa"), {"n": [4, 8]})
        self.assertEqual((caught.exception.refusal.number, caught.exception.refusal.place.file), ("E6", "-"))


class Usage(unittest.TestCase):
    def test_what_the_program_refuses(self):
        with self.assertRaises(pramc.UsageError) as caught:
            pramc.run(SUM, bound=-3)
        self.assertEqual(str(caught.exception), "refused P1 -3\ninvalid `-3` for `--bound`: it wants a number from 0 to 4294967295")
        self.assertEqual(caught.exception.refusal.detail, "-3")

    def test_options(self):
        rows = [{"show": "m"}, {"show": "--quiet"}, {"map": "affine:2,0"}, {"sizes": {"n": 8}}, {"input": [1], "random": (1, 2)},
                {"seed": 1}, {"draw": "what"}, {"random": (2, 1)}, {"memory": {"a b": [1]}}, {"memory": {"a\nm": [1]}},
                {"sizes": {"n=1 m": 8}},
                {"input": "1 2"}, {"input": 5}, {"input": [1.0]}, {"input": ["1"]}, {"random": (1, 2, 3)}, {"random": 5},
                {"reserve": (1,)}, {"sizes": [("n", 8)]}, {"memory": [5]}, {"show": 5}, {"sizes": "n"},
                {"memory": {"a": "1"}}, {"bound": "9 --quiet"}, {"map": "a\0b"}, {"map": "\ud800"}, {"input": [None]}, {"show": "é"}]
        for options in rows:
            with self.subTest(options), self.assertRaises(pramc.UsageError):
                pramc.run(SUM, **options)

    def test_other_calls(self):
        calls = [
            lambda: pramc.run(5), lambda: pramc.explore(SUM, cells=1), lambda: pramc.compare(SUM, SUM),
            lambda: pramc.sweep(SUM_N, {"q": [1]}), lambda: pramc.sweep(SUM_N, "n=4", inputs=[[1]]),
            lambda: pramc.compare(SUM, SUM, inputs=5), lambda: pramc.compare(SUM, SUM, inputs=[5]),
            lambda: pramc.sweep(SUM_N, {}), lambda: pramc.sweep(SUM_N, {"n": []}), lambda: pramc.sweep(SUM_N, {"n": [4]}, inputs={}),
            lambda: pramc.sweep(SUM_N, 5), lambda: pramc.explain("nothing"), lambda: pramc.explain("--help"),
            lambda: pramc.flow_figure(SUM, only="m"), lambda: pramc.steps_page(SUM, from_=-1), lambda: pramc.trace(SUM, bsp=(1,)),
            lambda: pramc.sweep_figure(SUM_N, {"n": ["4"]}), lambda: pramc.explore(SUM, cells=9**9, values=(0, 9)),
            lambda: pramc.explore(SUM, cells=1, values=(0, 1), ensure="rule crew; procs 1; shared a[1..9]; begin print 1; end")]
        for at, call in enumerate(calls):
            with self.subTest(at), self.assertRaises(pramc.UsageError):
                call()

    def test_numbers_beyond_64_bits(self):
        for value in (2**63, -(2**63) - 1, 10**400):
            calls = [
                lambda: pramc.run(SUM, input=[1, value]), lambda: pramc.run(SUM, memory={"a": [value]}),
                lambda: pramc.run(SUM_N, sizes={"n": value}), lambda: pramc.run(SUM, random=(min(value, 0), max(value, 0))),
                lambda: pramc.sweep(SUM_N, {"n": [value]}), lambda: pramc.always(SUM, values=(min(value, 0), max(value, 0))),
                lambda: pramc.compare(SUM, SUM, inputs=[[value]]), lambda: pramc.sweep(SUM_N, {"n": [4]}, inputs={4: [value]})]
            for at, call in enumerate(calls):
                with self.subTest(f"{at}: {value:e}" if abs(value) < 2**70 else at), self.assertRaises(pramc.NumberOutOfRange):
                    call()

    def test_which_value_is_beyond(self):
        with self.assertRaises(pramc.NumberOutOfRange) as caught:
            pramc.run(SUM, input=[1, 2**63])
        said = "input, value 1: 9223372036854775808 is not from -9223372036854775808 to 9223372036854775807"
        self.assertEqual(str(caught.exception), said)

    def test_integers_of_other_kinds(self):
        class Seven:
            def __index__(self):
                return 7

        self.assertEqual(pramc.run(SUM, input=[Seven(), True]).output, (8,))
        self.assertEqual(pramc.run(BODY.format("print s;"), memory={"s": Seven()}).output, (7,))


class Asked(unittest.TestCase):
    def test_faulted(self):
        with self.assertRaises(pramc.Faulted) as caught:
            pramc.run(SHARE, input=SUM_IN).expect_ended()
        self.assertEqual((str(caught.exception), caught.exception.outcome.fault.line), ("fault read-conflict a[1] line 9", 9))

    def test_went_on(self):
        with self.assertRaises(pramc.WentOn) as caught:
            pramc.meaning(COUNTS_ON, bound=5).expect_ended()
        self.assertTrue(caught.exception.outcome.went_on)

    def test_all_are_of_one_kind(self):
        for it in (pramc.Refused, pramc.NotAscii, pramc.UsageError, pramc.NumberOutOfRange, pramc.Faulted, pramc.WentOn,
                   pramc.ProgramMissing, pramc.ProgramFailed):
            self.assertTrue(issubclass(it, pramc.PramcError), it)
        self.assertTrue(issubclass(pramc.UsageError, ValueError))


def hostile_texts():
    """Texts that are cut, changed at a byte, deep, long, or of other bytes."""
    whole = SUM_N.encode()
    yield from (whole[:at] for at in range(0, len(whole), 9))
    yield from (whole[:at] + it + whole[at + 1 :] for at in range(3, len(whole), 23) for it in (b"\x00", b"\xc3", b"$", b"}", b"\r"))
    yield BODY.format("s := " + "(" * 70 + "1" + ")" * 70 + ";").encode()
    yield BODY.format("if 1 then " * 70 + "end " * 70).encode()
    yield BODY.format("s := 9223372036854775808;").encode()
    yield BODY.format("s := " + "9" * 5000 + ";").encode()
    yield b"# " + b"x" * 2**20
    yield b"\xef\xbb\xbf" + whole
    yield whole.decode().encode("utf-16")
    yield b"\n" * 300 + b"\tx\t\xff"
    yield b"rule crew; procs 1;\n\tbegin\n\tx := 1;\nend"
    yield "rule crew; procs 1; shared \N{GREEK SMALL LETTER ALPHA}; begin end".encode()
    yield b"refused E6 UnknownName at 3\nx:1:1\n^"


class Hostile(unittest.TestCase):
    def test_texts(self):
        refused = 0
        for text in hostile_texts():
            status, out, err = called(["check", "-", "--explain"], text)
            for call in (pramc.check, pramc.steps_figure):
                with self.subTest(text[:40], call=call.__name__):
                    if status == 0:
                        call(text)
                        continue
                    with self.assertRaises(pramc.Refused) as caught:
                        call(text)
                    more = err.removeprefix(f"{caught.exception}\n")
                    self.assertTrue(not more or more != err and call is pramc.check and NO_SIZE_LINE in more, err)
                    refused += 1
        self.assertGreater(refused, 140)

    def test_pictures_tell_refusals_as_calls_do(self):
        for text in hostile_texts():
            found = []
            for call in (pramc.check, pramc.flow_figure):
                try:
                    call(text)
                except pramc.Refused as it:
                    refusal = it.refusal
                    where = refusal.place and (refusal.place.line, refusal.place.column, refusal.place.source)
                    found.append((type(it), refusal.number, refusal.name, refusal.offset, refusal.detail, where))
            self.assertTrue(not found or found[0] == found[1], found)

    def test_a_name_of_a_size_is_no_word_of_the_call(self):
        with self.assertRaises(pramc.UsageError):
            pramc.run(SUM_N, sizes={"n=4 --bound": 1})

    def test_texts_by_names(self):
        with self.assertRaises(pramc.UsageError):
            pramc.run(NEXT, memory={"next = 1\nnext": [2]})
