"""Pictures, moments of replays, and sweeps."""
import base64
import tempfile
import unittest
from pathlib import Path
from xml.etree import ElementTree

import kaolinsilk
from common import CONFLICT, EXAMPLES, GALLERY, PREFIX, TINY
from kaolinsilk.moments import accesses_in, accesses_of

SVG = "{http://www.w3.org/2000/svg}"


def texts_of(picture):
    root = ElementTree.fromstring(picture.svg)
    return [it.text for it in root.iter(f"{SVG}text")]


class Pictures(unittest.TestCase):
    def test_each_picture_of_the_gallery_is_well_formed(self):
        for file in GALLERY:
            for draw in (kaolinsilk.draw_work, kaolinsilk.draw_memory):
                with self.subTest(file=file.name, draw=draw.__name__):
                    self.assertEqual(ElementTree.fromstring(draw(file).svg).tag, f"{SVG}svg")

    def test_processors_at_work(self):
        said = texts_of(kaolinsilk.draw_work(PREFIX))
        self.assertIn("Processors at work in steps 1 to 72", said)
        for name in ("P0", "P7", "12", "70", "reads a cell"):
            self.assertIn(name, said)
        window = texts_of(kaolinsilk.draw_work(PREFIX, 20, 30))
        self.assertIn("Processors at work in steps 20 to 30", window)

    def test_the_step_of_a_conflict_is_marked(self):
        self.assertIn('class="bad"', kaolinsilk.draw_work(CONFLICT).svg)
        self.assertNotIn('class="bad"', kaolinsilk.draw_work(CONFLICT, 1, 3).svg)
        self.assertNotIn('class="bad"', kaolinsilk.draw_work(PREFIX).svg)

    def test_the_memory(self):
        said = texts_of(kaolinsilk.draw_memory(PREFIX))
        for name in ("A[0]", "A[7]", "start", "31", "is written"):
            self.assertIn(name, said)
        self.assertNotIn("13", texts_of(kaolinsilk.draw_memory(CONFLICT)))

    def test_the_tree(self):
        plan = [(0, "go", 30), (0, "stop")]
        early, late = (kaolinsilk.moment(PREFIX, 2, plan, ticks) for ticks in (29, 30))
        self.assertEqual((sorted(early.places), sorted(late.places)), ([0, 1], [1]))
        self.assertEqual((early.leaves, len(early.nodes)), (8, 16))
        said = texts_of(kaolinsilk.draw_tree(PREFIX, 2, plan))
        for name in ("P0", "P7", "compute", "1"):
            self.assertIn(name, said)

    def test_the_end_of_a_replay(self):
        rows = kaolinsilk.replay(PREFIX, 3)
        end = kaolinsilk.moment(PREFIX, 3, ticks=len(rows), rows=rows)
        self.assertEqual(set(end.nodes[1:]), {3 * 72})
        self.assertEqual(end.places, {0: 1, 1: 1, 2: 1})

    def test_the_names_of_passes(self):
        said = texts_of(kaolinsilk.draw_tree(EXAMPLES / "leader_priority.pardo"))
        self.assertIn("claim", said)

    def test_what_a_step_reads(self):
        rows = kaolinsilk.steps(EXAMPLES / "sum_array.pram")
        reads = {it.step for it in accesses_of(rows, 8) if it.reads is not None}
        cost = kaolinsilk.cost(EXAMPLES / "sum_array.pram")
        self.assertEqual(len(reads), cost["reading"])

    def test_accesses_are_those_of_the_costs(self):
        for file in GALLERY:
            cost, found = kaolinsilk.cost(file), list(accesses_in(file))
            with self.subTest(file=file.name):
                for name, field in (("reading", "reads"), ("writing", "writes")):
                    steps = {it.step for it in found if getattr(it, field) is not None}
                    self.assertEqual(len(steps), cost[name])

    def test_notebooks(self):
        picture, answer = kaolinsilk.draw_memory(PREFIX), kaolinsilk.plain(PREFIX)
        self.assertEqual(picture._repr_svg_(), picture.svg)
        [image] = ElementTree.fromstring(f"<p>{picture._repr_html_()[:-1]}/></p>")
        data = image.get("src").partition("base64,")[2]
        self.assertEqual(base64.b64decode(data).decode(), picture.svg)
        self.assertIn("<td>A</td><td>3 4 8 9 14 23 25 31</td>", answer._repr_html_())
        self.assertIn("against the rule", kaolinsilk.plain(CONFLICT)._repr_html_())
        self.assertIn("more rows", kaolinsilk.steps(PREFIX)._repr_html_())
        self.assertIn("<td>EREW</td>", kaolinsilk.cost(EXAMPLES / "squares.pardo")._repr_html_())

    def test_a_picture_is_saved(self):
        with tempfile.TemporaryDirectory() as room:
            file, picture = Path(room, "a.svg"), kaolinsilk.draw_work(TINY)
            picture.save(file)
            self.assertEqual(file.read_text(encoding="utf-8"), picture.svg)


class Sweeps(unittest.TestCase):
    def test_a_sweep(self):
        rows = kaolinsilk.sweep(EXAMPLES / "broadcast.pardo", n=[2, 4, 8])
        self.assertEqual(rows[2]["steps"], kaolinsilk.cost(EXAMPLES / "broadcast.pardo")["steps"])
        self.assertEqual((rows["n"], rows["end"]), ([2, 4, 8], ["done"] * 3))
        names = "n,steps,time,operations,processors,needs,end"
        self.assertEqual((rows["time"], ",".join(rows.names)), ([1, 2, 3], names))  # a round each

    def test_ends(self):
        header = "pardo 1\nrule common\nconst n = 1\nprocs i < n\nshared A[2]\ncode\n"
        ends = kaolinsilk.sweep(header + "A[i] := n\n", n=[2, 3])["end"]
        self.assertEqual(ends, ["done", "gone"])
        rows = kaolinsilk.sweep(header + "A[0] := i\n", n=[1, 2])
        self.assertEqual(rows["end"], ["done", "conflict"])

    def test_start_values(self):
        text = EXAMPLES / "sum.pardo"
        with self.assertRaises(kaolinsilk.Refused):
            kaolinsilk.sweep(text, n=[16])
        rows = kaolinsilk.sweep(text, {"A": lambda n: [1] * n}, n=[2, 4, 8, 16])
        steps = rows["steps"]
        self.assertEqual({later - sooner for sooner, later in zip(steps, steps[1:])}, {21})

    def test_what_cannot_be_swept(self):
        for asked in ({}, {"n": [1], "m": [2]}):
            with self.assertRaises(kaolinsilk.BadRequest):
                kaolinsilk.sweep(PREFIX, **asked)
        with self.assertRaises(kaolinsilk.Refused):
            kaolinsilk.sweep(PREFIX, unknown=[1])
        with self.assertRaises(kaolinsilk.Refused):
            kaolinsilk.sweep(PREFIX, {"B": lambda n: [1]}, n=[8])

    def test_a_plot(self):
        try:
            import matplotlib
        except ImportError:
            self.skipTest("matplotlib is not there")
        matplotlib.use("Agg")
        axes = kaolinsilk.sweep(EXAMPLES / "broadcast.pardo", n=[2, 4, 8]).plot()
        self.assertEqual([line.get_label() for line in axes.get_lines()], ["time", "operations"])


if __name__ == "__main__":
    unittest.main()
