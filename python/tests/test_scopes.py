"""Many inputs together: values of the page on the language (docs/LANGUAGE.md) and of the tutorial."""
import tempfile
import unittest
from pathlib import Path

import pramc

from .programs import ADA, BEN, COUNTS_ON, DOUBLES, EVEN, GATHER, HALVED, HALVES, NEXT, OPEN, OWED, SCATTER, SUM, SUM_N, TYPO

GREATEST = 2**63 - 1


class Explorations(unittest.TestCase):
    def test_all_inputs(self):
        found = pramc.explore(SCATTER, cells=3, values=(0, 2))
        self.assertEqual((found.inputs, found.ended, found.faulted, found.go_on), (27, 6, 21, 0))
        self.assertEqual(found.faults, (pramc.FoundFault(pramc.Fault("write-conflict", "a[0]", 4), (0, 0, 0)),))
        self.assertEqual((found.time, found.work), (pramc.Range(2, 2), pramc.Range(4, 4)))
        self.assertEqual((found.is_right, found.counting, found.failed, found.goes_on_at), (False, None, None, None))

    def test_under_another_rule(self):
        found = pramc.explore(SCATTER, cells=3, values=(0, 2), under="priority", workers=2)
        self.assertEqual((found.ended, found.is_right), (27, True))

    def test_orders(self):
        self.assertEqual(pramc.explore(OWED, permutations=4).inputs, 24)
        drawn = pramc.explore(OWED, draw="permutation", count=7, cells=3)
        self.assertEqual((drawn.inputs, drawn.cells), (7, 3))

    def test_where_and_ensure(self):
        found = pramc.explore(HALVES, cells=1, values=(0, 3), ensure=HALVED)
        self.assertEqual((found.ended, found.failed, found.fails_at, found.is_right), (4, 4, (0,), False))
        mended = HALVES.replace("whole + i", "whole + i - 1")
        found = pramc.explore(mended, cells=1, values=(0, 3), where=EVEN, ensure=HALVED)
        self.assertEqual((found.inputs, found.counting, found.ended, found.failed, found.is_right), (4, 2, 2, 0, True))

    def test_smaller_inputs(self):
        scope = {"cells": 1, "values": (-3, 3), "ensure": HALVED}
        self.assertEqual(pramc.explore(HALVES, **scope).fails_at, (-3,))
        self.assertEqual(pramc.explore(HALVES, **scope, shrink=True).fails_at, (0,))

    def test_a_witness(self):
        scope = {"cells": 1, "values": (-3, 3), "ensure": HALVED}
        with tempfile.TemporaryDirectory() as folder:
            out = Path(folder, "bad.in")
            self.assertEqual(pramc.explore(HALVES, **scope, witness=str(out)).fails_at, (-3,))
            self.assertEqual(out.read_text(), "-3\n")

    def test_one_that_goes_on(self):
        text = "rule crew; procs 1; shared s;\nbegin\n  while s = 2 do s := 2; end\nend\n"
        found = pramc.explore(text, cells=1, values=(1, 2), bound=9)
        self.assertEqual((found.ended, found.go_on, found.goes_on_at), (1, 1, (2,)))

    def test_sizes(self):
        self.assertEqual(pramc.explore(SUM_N, cells=2, values=(0, 1), sizes={"n": 2}).inputs, 4)


class Comparisons(unittest.TestCase):
    def test_how_runs_come_out(self):
        found = pramc.compare(SCATTER, GATHER, cells=3, values=(0, 2))
        self.assertEqual((found.inputs, found.same, len(found.differences), found.is_same), (27, 3, 24, False))
        first = found.differences[0]
        self.assertEqual((first.input, first.differs), ((0, 0, 0), "outcome"))
        self.assertEqual((first.first, first.second), (pramc.Fault("write-conflict", "a[0]", 4), "ended"))

    def test_an_item(self):
        found = pramc.compare(OWED, BEN, permutations=4)
        self.assertEqual((found.inputs, found.same), (24, 12))
        first = found.differences[0]
        self.assertEqual((first.input, first.differs, first.item, first.first, first.second), ((1, 2, 4, 3), "output", 1, 4, 2))

    def test_an_output_that_is_over(self):
        found = pramc.compare(NEXT, NEXT.replace("begin", "begin print 3;"), inputs=[[]])
        self.assertEqual((found.differences[0].first, found.differences[0].second), (None, 3))

    def test_a_limit(self):
        self.assertTrue(pramc.compare(OWED, ADA, permutations=4).is_same)
        for limit in (21, "20 + 1"):
            found = pramc.compare(OWED, ADA, permutations=4, time_at_most=limit)
            first = found.differences[0]
            self.assertEqual((found.same, first.differs, first.taken, first.limit), (0, "time", 22, 21))
        self.assertEqual(pramc.compare(SUM, SUM, inputs=[[]], work_at_most=11).differences[0].taken, 12)

    def test_a_cell(self):
        found = pramc.compare(NEXT, NEXT.replace("begin", "begin next[3] := 9;"), inputs=[[1, 2, 3], [1, 2, 9]])
        self.assertEqual((found.inputs, found.same), (2, 1))
        self.assertEqual((found.differences[0].cell, found.differences[0].first, found.differences[0].second), ("next[3]", 3, 9))

    def test_names(self):
        other = NEXT.replace("begin", "begin next[3] := 9;")
        for names in ("output", ["output"]):
            self.assertTrue(pramc.compare(NEXT, other, inputs=[[]], only=names).is_same)

    def test_drawn(self):
        found = pramc.compare(SUM, SUM, count=5, random=(1, 9), seed=3)
        self.assertEqual((found.inputs, found.same, found.cells, found.counting), (5, 5, 4, None))
        self.assertEqual(pramc.compare(SUM, SUM, count=5, random=(1, 9), cells=2).cells, 2)
        self.assertEqual(pramc.compare(NEXT, NEXT, count=2, draw="ring").same, 2)

    def test_where(self):
        where = "rule crew; procs 1; shared a[0..2]; begin print a[0] < a[1] and a[1] < a[2]; end"
        found = pramc.compare(SCATTER, GATHER, cells=3, values=(0, 2), where=where)
        self.assertEqual((found.inputs, found.counting, found.same, found.is_same), (27, 1, 1, True))

    def test_sizes_and_bound(self):
        self.assertEqual(pramc.compare(SUM_N, SUM_N, permutations=2, sizes={"n": 2}, bound=1).same, 2)


class Grades(unittest.TestCase):
    def test_a_class(self):
        handed_in = {"ben": BEN, "ada": ADA}
        found = pramc.grade(OWED, handed_in, cells=4, values=(0, 4), only="output", under="erew", time_at_most=21)
        self.assertEqual([(word, it.passes, it.refusal) for word, it in found.items()], [("ben", False, None), ("ada", False, None)])
        ben, ada = found["ben"].marks, found["ada"].marks
        self.assertEqual((ben.counting, ben.correct, ben.faulted, ben.go_on, ben.above), (625, 311, 0, 0, 0))
        self.assertEqual((ben.time, ben.work, ben.rule, ben.procs, ben.procs_at_most), (8, 12, "erew", 4, None))
        first = ben.difference
        self.assertEqual((first.input, first.differs, first.item, first.first, first.second), ((0, 0, 1, 0), "output", 1, 1, 0))
        self.assertEqual((ada.correct, ada.go_on, ada.time), (0, 625, 21))
        self.assertEqual((ada.difference.first, ada.difference.second), ("ended", "goes on"))

    def test_processors(self):
        for most, passes in ((3, False), ("2 * 2", True)):
            found = pramc.grade(OWED, {"same": OWED}, permutations=4, procs_at_most=most)["same"]
            self.assertEqual((found.passes, found.marks.correct, found.marks.difference), (passes, 24 if passes else 0, None))
        self.assertEqual((found.marks.procs, found.marks.procs_at_most), (4, 4))

    def test_work(self):
        found = pramc.grade(SUM, {"same": SUM}, inputs=[[]], work_at_most=11)["same"].marks
        self.assertEqual((found.above, found.difference.differs, found.difference.taken, found.difference.limit), (1, "work", 12, 11))

    def test_a_fault(self):
        found = pramc.grade(GATHER, {"scatter": SCATTER}, cells=3, values=(0, 2))["scatter"].marks
        self.assertEqual((found.faulted, found.difference.second), (21, pramc.Fault("write-conflict", "a[0]", 4)))

    def test_one_that_is_refused(self):
        found = pramc.grade(SUM, {"typo": TYPO, "sum": SUM}, permutations=4)
        self.assertTrue(found["sum"].passes)
        refusal = found["typo"].refusal
        self.assertEqual((found["typo"].passes, found["typo"].marks), (False, None))
        self.assertEqual((refusal.number, refusal.name, refusal.offset), ("E6", "UnknownName", TYPO.index("aa")))
        self.assertEqual((refusal.line, refusal.column), (9, 9))

    def test_a_first_one_that_is_refused(self):
        self.assertRaises(pramc.Refused, pramc.grade, TYPO, {"sum": SUM}, permutations=4)

    def test_none(self):
        self.assertRaises(pramc.UsageError, pramc.grade, SUM, {}, permutations=4)
        self.assertRaises(pramc.UsageError, pramc.grade, SUM, SUM, permutations=4)

    def test_inputs(self):
        where = "rule crew; procs 1; shared a[1..4]; begin print a[1] = 1; end"
        self.assertEqual(pramc.grade(SUM, {"same": SUM}, permutations=4, where=where)["same"].marks.counting, 6)
        drawn = {"count": 5, "random": (1, 9), "seed": 3}
        self.assertEqual(pramc.grade(SUM, {"same": SUM}, **drawn)["same"].marks.correct, 5)
        self.assertEqual(pramc.grade(NEXT, {"same": NEXT}, count=2, draw="ring")["same"].marks.correct, 2)

    def test_sizes_and_bound(self):
        found = pramc.grade(SUM_N, {"same": SUM_N}, permutations=2, sizes={"n": 2}, bound=1)["same"].marks
        self.assertEqual((found.counting, found.correct, found.go_on), (2, 0, 2))


class AllInputs(unittest.TestCase):
    def test_what_holds(self):
        found = pramc.always(DOUBLES, cells=8, values=(-1000, 1000))
        self.assertEqual(found.scope, pramc.Scope(8, -1000, 1000))
        self.assertEqual((found.faults, found.time, found.each_ends), ((), pramc.Range(2, 2), True))
        self.assertEqual(found.memory["a"], pramc.Cells("a", -1000, 1000, 1, 8))
        self.assertEqual(found.memory["b"], pramc.Cells("b", -2000, 2000, 1, 4))

    def test_what_may_come(self):
        found = pramc.always(DOUBLES, cells=8)
        [fault] = found.faults
        each = pramc.Range(-GREATEST - 1, GREATEST)
        self.assertEqual((fault.kind, fault.line, found.each_ends, found.each_faults), ("overflow", 4, False, False))
        self.assertEqual((fault.reason.operator, fault.reason.left, fault.reason.right), ("+", each, each))

    def test_reasons(self):
        rows = [
            ("print a[s];", (0, 9), {"subscript_of": "a", "subscript": pramc.Range(0, 9)}),
            ("print -s;", (-GREATEST - 1, 0), {"operator": "-", "operand": pramc.Range(-GREATEST - 1, 0)}),
            ("for 1 <= i <= 9 pardo end", (0, 0), {"first": 1, "last": 9}),
            ("for 1 <= i <= 2 pardo s := i; end", (0, 0), {"shared": True}),
        ]
        for statement, values, known in rows:
            text = f"rule crew; procs 4; shared s; shared a[1..9]; begin {statement} end"
            reason = pramc.always(text, cells=1, values=values).faults[0].reason
            self.assertEqual({it: getattr(reason, it) for it in known}, known, statement)

    def test_each_faults(self):
        self.assertTrue(pramc.always("rule crew; procs 1; begin print 1 div 0; end").each_faults)

    def test_one_that_goes_on(self):
        found = pramc.always(COUNTS_ON, bound=9)
        self.assertEqual((found.may_go_on, found.time, found.memory), (True, None, {}))

    def test_too_little_is_known(self):
        found = pramc.always(OPEN, values=(1, 5))
        self.assertEqual((found.undecided, found.each_ends), (pramc.Undecided(3, "open-bounds"), False))

    def test_under_another_rule(self):
        self.assertTrue(pramc.always(SCATTER, values=(0, 2), under="priority").each_ends)
        self.assertFalse(pramc.always(SCATTER, values=(0, 2)).each_ends)
