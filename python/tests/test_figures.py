"""Pictures, pages and texts, which are those of the program."""
import html
import re
import tempfile
import unittest
import xml.etree.ElementTree
from pathlib import Path

import pramc

from .programs import SHARE, SUM, SUM_IN, SUM_N, called

SVG = "{http://www.w3.org/2000/svg}svg"


class Drawings(unittest.TestCase):
    def written(self, *words, text=SUM):
        """What the program writes of a text with the input of the tutorial."""
        with tempfile.TemporaryDirectory() as folder:
            file = Path(folder, "input")
            file.write_text(" ".join(map(str, SUM_IN)))
            return called([words[0], "-", "--input", str(file), *words[1:]], text.encode())[1]

    def test_pictures(self):
        given = {"input": SUM_IN}
        rows = [
            (pramc.steps_figure(SUM, **given, from_=2, to=9), ("steps", "--svg", "--from", "2", "--to", "9")),
            (pramc.flow_figure(SUM, **given, only="a"), ("steps", "--flow", "--only", "a")),
            (pramc.trace_figure(SUM, **given, workers=2, map="affine:3,1"), ("trace", "--svg", "--workers", "2", "--map", "affine:3,1"))]
        for figure, words in rows:
            self.assertEqual(figure.svg, self.written(*words))
            self.assertEqual(xml.etree.ElementTree.fromstring(figure.svg).tag, SVG)
            self.assertEqual(figure._repr_svg_(), figure.svg)
            self.assertEqual(figure._repr_html_(), f'<div style="overflow-x: auto">{figure.svg}</div>')

    def test_a_sweep(self):
        figure = pramc.sweep_figure(SUM_N, "n=4..64*2")
        self.assertEqual(xml.etree.ElementTree.fromstring(figure.svg).tag, SVG)
        self.assertIn("What a program costs at several sizes", figure.svg)

    def test_a_picture_of_a_fault(self):
        self.assertIn("read-conflict", pramc.steps_figure(SHARE, input=SUM_IN).svg)

    def test_a_page(self):
        page = pramc.steps_page(SUM, input=SUM_IN)
        self.assertEqual(page.html, self.written("steps", "--html"))
        framed = re.fullmatch(r'<iframe title="[^"]*" style="[^"]*" srcdoc="([^"]*)"></iframe>', page._repr_html_())
        self.assertEqual(html.unescape(framed[1]), page.html)

    def test_files(self):
        with tempfile.TemporaryDirectory() as folder:
            for made, content in ((pramc.steps_figure(SUM), "svg"), (pramc.steps_page(SUM), "html")):
                file = Path(folder, content)
                made.save(file)
                self.assertEqual(file.read_text(), getattr(made, content))

    def test_texts(self):
        self.assertEqual(pramc.expand(SUM_N, sizes={"n": 16}).splitlines()[:2], ["# size n = 4", "rule erew; procs 8;"])
        self.assertEqual(pramc.plan(SUM).splitlines()[:3], ["bsp 1", "rule erew", "procs 4"])
        self.assertIn("MPI_Alltoallv", pramc.export(SUM))
        self.assertNotIn("MPI_", pramc.export(SUM, to="c"))
        self.assertIn("    halt()", pramc.export(SUM, to="c"))
        self.assertEqual(pramc.explain("E6").splitlines()[0], "E6 UnknownName: a name that is not in scope.")
        self.assertIn("language", pramc.explain())
        self.assertEqual(f"pramc {pramc.version()}\n", called(["--version"])[1])
