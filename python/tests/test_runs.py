"""Runs, their costs and their statements: values of the tutorial (docs/TUTORIAL.md), which were worked out by hand."""
import tempfile
import unittest
from pathlib import Path

import pramc

from .programs import COUNTS_ON, NEXT, SHARE, SUM, SUM_IN, SUM_N, called

ENDED = "15\nended\na[1..4] = 15 8 7 1"


class Runs(unittest.TestCase):
    def test_check(self):
        self.assertEqual(pramc.check(SUM), pramc.Accepted(cells=4, procs=4, rule="erew"))

    def test_check_at_a_size(self):
        self.assertEqual(pramc.check(SUM_N, sizes={"n": 64}), pramc.Accepted(64, 32, "erew"))

    def test_an_outcome(self):
        for outcome in (pramc.run(SUM, input=SUM_IN), pramc.meaning(SUM, input=SUM_IN)):
            self.assertEqual(str(outcome), ENDED)
            self.assertEqual((outcome.how, outcome.output, outcome.fault), ("ended", (15,), None))
            self.assertEqual((outcome.ended, outcome.faulted, outcome.went_on), (True, False, False))
            self.assertEqual(outcome.memory, {"a": pramc.Declaration("a", (15, 8, 7, 1), 1, 4)})
            self.assertIs(outcome.expect_ended(), outcome)

    def test_cells_have_the_subscripts_of_the_program(self):
        cells = pramc.run(SUM, input=SUM_IN).memory["a"]
        self.assertEqual((cells[1], cells[4], list(cells), len(cells), cells.is_array), (15, 1, [15, 8, 7, 1], 4, True))
        for subscript in (0, 5, -1):
            with self.assertRaises(IndexError):
                cells[subscript]
        with self.assertRaises(TypeError):
            int(cells)

    def test_a_single_cell(self):
        cell = pramc.run("rule crew; procs 1; shared s; begin s := 7; end").memory["s"]
        self.assertEqual((int(cell), cell.is_array, cell.low, str(cell)), (7, False, None, "s = 7"))

    def test_a_fault(self):
        for outcome in (pramc.run(SHARE, input=SUM_IN), pramc.meaning(SHARE, input=SUM_IN)):
            self.assertEqual(outcome.fault, pramc.Fault("read-conflict", "a[1]", 9))
            self.assertEqual((outcome.how, outcome.memory, outcome.output), ("fault", {}, ()))
            self.assertEqual(str(outcome), "fault read-conflict a[1] line 9")

    def test_a_bound(self):
        self.assertEqual(str(pramc.run(SUM, input=SUM_IN, bound=10)), "goes on")
        self.assertTrue(pramc.meaning(SUM, input=SUM_IN, bound=10).went_on)
        self.assertEqual(str(pramc.run(SUM, input=SUM_IN, bound=11)), ENDED)

    def test_workers_and_maps_change_no_outcome(self):
        outcome = pramc.run(SUM, input=SUM_IN, workers=3, map="affine:3,1", reserve=(1, 9))
        self.assertEqual(str(outcome), ENDED)

    def test_a_reserve_that_is_too_small(self):
        with self.assertRaises(pramc.Refused) as caught:
            pramc.run(SUM, input=SUM_IN, reserve=(0, 9))
        self.assertEqual(caught.exception.refusal.number, "E18")

    def test_sizes(self):
        outcome = pramc.run(SUM_N, input=[3, 1, 4, 1, 5, 9, 2, 6], sizes={"n": 8})
        self.assertEqual(str(outcome), "31\nended\na[1..8] = 31 22 14 8 5 9 2 6")

    def test_seconds(self):
        outcome = pramc.meaning(COUNTS_ON, bound=4294967295, seconds=1)
        self.assertTrue(outcome.went_on)
        self.assertGreater(outcome.ended_behind, 0)
        self.assertIsNone(pramc.meaning(SUM, seconds=60).ended_behind)

    def test_show_and_quiet(self):
        self.assertEqual(pramc.run(SUM, input=SUM_IN, quiet=True).memory, {})
        text = "rule crew; procs 1; shared s; shared t; shared u; begin t := 2; end"
        for names in ("t,u", ["t", "u"]):
            self.assertEqual([*pramc.meaning(text, show=names).memory], ["t", "u"])


class Fillings(unittest.TestCase):
    def test_by_names(self):
        for memory in ({"a": [5, 2, 7, 1]}, {"a": (it for it in SUM_IN)}, pramc.run("rule crew; procs 1; shared a[1..4];"
                       "begin a[1] := 5; a[2] := 2; a[3] := 7; a[4] := 1; end").memory):
            self.assertEqual(str(pramc.run(SUM, memory=memory)), ENDED)

    def test_a_cell_by_its_name(self):
        text = "rule crew; procs 1; shared a[1..2]; shared s; begin print s; end"
        for value in (-9, [-9]):
            self.assertEqual(pramc.meaning(text, memory={"s": value}).output, (-9,))

    def test_drawn(self):
        values = pramc.run(NEXT, random=(1, 100), seed=1).memory["next"]
        self.assertEqual(list(values)[:5], [5, 51, 11, 79, 47])
        self.assertNotEqual(pramc.run(NEXT, random=(1, 100), seed=2).memory["next"], values)
        self.assertEqual(list(pramc.run(NEXT, draw="list").memory["next"]), [0, 7, 6, 1, 2, 5, 8, 4])

    def test_values_of_64_bits(self):
        text = "rule crew; procs 1; shared s; begin print s; end"
        for value in (-(2**63), 2**63 - 1):
            self.assertEqual(pramc.run(text, input=[value]).output, (value,))
            self.assertEqual(pramc.run(text, random=(value, value)).output, (value,))

    def test_no_values(self):
        self.assertEqual(pramc.run(SUM, input=[]).output, (0,))


class Costs(unittest.TestCase):
    def test_counts(self):
        cost = pramc.cost(SUM, input=SUM_IN)
        self.assertEqual((cost.time, cost.work, cost.width, cost.reads, cost.writes, cost.exchanges_at_most), (11, 12, 2, 7, 3, 9))
        self.assertEqual((cost.words_at_most, cost.processors, cost.rounds, cost.lines), (None, None, None, ()))
        self.assertEqual(str(cost.outcome), ENDED)

    def test_words_rounds_and_lines(self):
        cost = pramc.cost(SUM, input=SUM_IN, workers=2, schedule=1, lines=True)
        self.assertEqual(cost.words_at_most, 25)
        # one processor does the work one by one: 12 rounds, and Brent allows 12 + 11
        self.assertEqual((cost.processors, cost.rounds, cost.rounds_at_most), (1, 12, 23))
        self.assertEqual([(it.line, it.times, it.work) for it in cost.lines], [(4, 1, 1), (5, 3, 3), (6, 2, 2), (7, 4, 5), (9, 1, 1)])
        self.assertEqual(cost.lines[3], pramc.LineCost(line=7, times=4, work=5, reads=6, writes=3))

    def test_a_fault_has_no_exchanges(self):
        cost = pramc.cost(SHARE, input=SUM_IN)
        self.assertEqual((cost.time, cost.exchanges_at_most, cost.outcome.faulted), (12, None, True))

    def test_seconds(self):
        self.assertGreater(pramc.cost(COUNTS_ON, bound=4294967295, seconds=1).outcome.ended_behind, 0)


class Sweeps(unittest.TestCase):
    def test_a_table_and_its_formulas(self):
        for over in ({"n": [4, 8, 16, 32, 64]}, "n=4..64*2"):
            swept = pramc.sweep(SUM_N, over)
            self.assertEqual([it.value for it in swept.rows], [4, 8, 16, 32, 64])
            self.assertEqual([it.time for it in swept.rows], [11, 15, 19, 23, 27])
            self.assertEqual([it.work for it in swept.rows], [12, 19, 30, 49, 84])
            self.assertEqual((swept.time, swept.work), ("4 log n + 3", "n + 3 log n + 2"))
        self.assertEqual(swept.rows[0], pramc.SweepRow("n", 4, "ended", 11, 12, 2, 7, 3, 9, None, None))

    def test_csv_by_hand(self):
        swept = pramc.sweep(SUM_N, {"n": [4]}, workers=2)
        rows = "n,time,work,width,reads,writes,exchanges,words,outcome\n4,11,12,2,7,3,9,25,ended\n"
        self.assertEqual((swept.to_csv(), swept.time), (rows, None))

    def test_csv_is_that_of_the_program(self):
        sizes = [4, 0, 8, 100000]
        swept = pramc.sweep(SUM_N, {"n": sizes}, bound=12)
        self.assertEqual([it.how for it in swept.rows], ["ended", "refused", "goes on", "refused"])
        # the program reads its text once for each size, so not from standard input
        path = self.file_of(SUM_N)
        words = ["cost", path, "--sweep", "n=4,0,8,100000", "--bound", "12", "--format", "csv"]
        self.assertEqual(swept.to_csv(), called(words)[1])

    def test_a_fault_at_a_size(self):
        text = "# size n = 4\nrule crew; procs 4; shared s;\nbegin\n  s := 8 div ({n} - {n} mod 2 * {n});\nend\n"
        swept = pramc.sweep(text, {"n": [2, 3]})
        self.assertEqual([it.why for it in swept.rows], [None, "fault divide-by-zero all line 4"])

    def test_inputs_by_size(self):
        text = "# size n = 4\nrule crew; procs 1; shared s; var i;\nbegin\n  while i < s do i := i + 1; end\nend\n"
        swept = pramc.sweep(text, {"n": [1, 2]}, inputs={1: [5], 2: [0]})
        # the test 6 times and the assignment 5 times; the test alone
        self.assertEqual([it.time for it in swept.rows], [11, 1])

    def test_a_size_without_an_input(self):
        rows = pramc.sweep(SUM_N, {"n": [4, 8]}, inputs={4: SUM_IN}).rows
        self.assertEqual([(it.how, it.time) for it in rows], [("ended", 11), ("refused", None)])

    def file_of(self, text):
        folder = tempfile.TemporaryDirectory()
        self.addCleanup(folder.cleanup)
        file = Path(folder.name, "program.pram")
        file.write_text(text)
        return str(file)


class Tellings(unittest.TestCase):
    def test_statements(self):
        told = pramc.steps(SUM, input=SUM_IN)
        self.assertEqual(list(told.opening["a"]), SUM_IN)
        self.assertEqual([(it.number, it.line, it.processors) for it in told.steps], [
            (1, 4, 1), (2, 5, 1), (3, 6, 1), (4, 7, 1), (5, 7, 2), (6, 5, 1), (7, 6, 1), (8, 7, 1), (9, 7, 1), (10, 5, 1), (11, 9, 1)])
        self.assertEqual(told.steps[4].changes, (pramc.Change("a[1]", 5, 7), pramc.Change("a[2]", 2, 8)))
        self.assertEqual(told.steps[0].variables, (pramc.Change("m", 0, 4),))
        self.assertEqual((told.steps[10].printed, told.steps[0].printed), ((15,), ()))
        self.assertEqual(str(told.outcome), ENDED)

    def test_what_a_processor_read_and_wrote(self):
        acts = pramc.steps(SUM, input=SUM_IN).steps[4].acts
        # of a[i] := a[2 * i - 1] + a[2 * i] the operations are *, -, a read, *, a read
        self.assertEqual(acts[1], pramc.Act(2, (pramc.Read("a[3]", 3, 7), pramc.Read("a[4]", 5, 1)), "a[2]", 8))
        self.assertEqual(pramc.steps(SUM, input=SUM_IN).steps[0].acts, (pramc.Act(None, (), None, None),))

    def test_a_fault(self):
        told = pramc.steps(SHARE, input=SUM_IN, from_=12)
        [step] = told.steps
        self.assertEqual((step.number, step.fault, step.processors), (12, pramc.Fault("read-conflict", "a[1]", 9), 4))
        self.assertEqual((step.meeting.met, step.meeting.writers, step.meeting.locals), ((1, 2, 3, 4), (), ()))

    def test_why_a_statement_faulted(self):
        rows = [
            ("print a[3];", {"array": "a", "subscript": 3, "low": 1, "high": 2, "met": ()}),
            ("print 7 div a[1];", {"operator": "div", "operands": (7, 0)}),
            ("for 1 <= i <= 9 pardo end", {"low": 1, "high": 9, "procs": 4}),
            ("for 1 <= i <= 2 pardo s := i; end", {"met": (1, 2), "writers": (pramc.Write(1, 1), pramc.Write(2, 2))}),
        ]
        for statement, known in rows:
            text = f"rule crew; procs 4; shared a[1..2]; shared s; begin {statement} end"
            meeting = pramc.steps(text).steps[-1].meeting
            self.assertEqual({it: getattr(meeting, it) for it in known}, known, statement)

    def test_locals(self):
        text = "rule crew; procs 2; shared s; begin for 1 <= i <= 2 pardo local x; x := 5 * i; s := x; end end"
        told = pramc.steps(text).steps
        self.assertEqual(told[1].locals, (pramc.Change("x", 0, 5, 1), pramc.Change("x", 0, 10, 2)))
        self.assertEqual(told[2].meeting.locals, (pramc.LocalValue("x", 1, 5), pramc.LocalValue("x", 2, 10)))

    def test_from_and_to(self):
        told = pramc.steps(SUM, input=SUM_IN, from_=3, to=4)
        self.assertEqual(([it.number for it in told.steps], told.outcome.output), ([3, 4], (15,)))

    def test_seconds(self):
        told = pramc.steps(COUNTS_ON, bound=4294967295, seconds=1, to=1)
        self.assertEqual((len(told.steps), told.outcome.went_on), (1, True))

    def test_exchanges(self):
        told = pramc.trace(SUM, input=SUM_IN, workers=2, bsp=(2, 30))
        self.assertEqual([it.h for it in told.exchanges], [2, 2, 3, 2, 2, 3, 2, 2, 0])
        self.assertEqual([it.purpose for it in told.exchanges[-3:]], ["send", "reply", "close"])
        self.assertEqual(told.exchanges[3], pramc.Exchange(4, "send", (2, 0), (1, 1), 2, 7))
        # 2 times 18, and 30 for each of the nine
        self.assertEqual((told.cost, str(told.outcome)), (306, ENDED))
        self.assertIsNone(pramc.trace(SUM, map="affine:1,1", reserve=(1, 9)).cost)

    def test_rules(self):
        found = pramc.rules(SHARE, input=SUM_IN)
        self.assertEqual([*found], ["erew", "crew", "common", "priority", "sum"])
        self.assertEqual(found["erew"], pramc.UnderRule("erew", "fault", None, False, pramc.Fault("read-conflict", "a[1]", 9)))
        self.assertEqual(found["sum"], pramc.UnderRule("sum", "ended", True, False, None))
        self.assertTrue(pramc.rules(SUM)["erew"].declared)
        text = "rule common; procs 2; shared s; begin for 1 <= i <= 2 pardo s := 1; end end"
        self.assertEqual([it.same for it in pramc.rules(text).values()], [None, None, True, True, False])
