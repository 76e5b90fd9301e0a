"""What stands in documents: the examples of docstrings and of README.md, and the notebook."""
import doctest
import importlib.util
import json
import os
import shutil
import subprocess
import sys
import tempfile
import unittest
from pathlib import Path

import kaolinsilk
from common import TOP

NOTEBOOK = TOP / "docs/notebook.ipynb"
README = TOP / "bindings/python/README.md"


class Documents(unittest.TestCase):
    def test_docstrings(self):
        tried = 0
        for file in sorted(Path(kaolinsilk.__file__).parent.glob("*.py")):
            name = "kaolinsilk" if file.stem == "__init__" else f"kaolinsilk.{file.stem}"
            result = doctest.testmod(importlib.import_module(name))
            self.assertEqual(result.failed, 0, name)
            tried += result.attempted
        self.assertGreater(tried, 20)

    @unittest.skipUnless(README.is_file(), "README.md is not there")
    def test_the_readme(self):
        result = doctest.testfile(str(README), module_relative=False)
        self.assertEqual(result.failed, 0)
        self.assertGreater(result.attempted, 5)

    def test_every_public_call_says_what_it_does(self):
        for name in kaolinsilk.__all__:
            self.assertTrue(getattr(kaolinsilk, name).__doc__, name)

    @unittest.skipUnless(NOTEBOOK.is_file(), "the notebook is not there")
    def test_the_notebook(self):
        """Runs the notebook's cells in order, as far as what they need is there."""
        try:
            import matplotlib
        except ImportError:
            self.skipTest("matplotlib is not there")
        matplotlib.use("Agg")
        names = {}
        for number, cell in enumerate(json.loads(NOTEBOOK.read_text())["cells"]):
            if cell["cell_type"] == "code":
                with self.subTest(cell=number):
                    exec(compile("".join(cell["source"]), f"cell {number}", "exec"), names)

    @unittest.skipUnless(NOTEBOOK.is_file(), "the notebook is not there")
    def test_the_notebook_in_jupyter(self):
        jupyter = shutil.which("jupyter-nbconvert")
        needs = ("nbconvert", "ipykernel", "matplotlib", "pandas")
        if not jupyter or any(importlib.util.find_spec(it) is None for it in needs):
            self.skipTest("jupyter is not there for this python3")
        path = os.pathsep.join(str(Path(it).parent) for it in kaolinsilk.__path__)
        with tempfile.TemporaryDirectory() as room:
            made = Path(room, "made.ipynb")
            words = ["-m", "nbconvert", "--to", "notebook", "--execute", "--output", made, NOTEBOOK]
            how = {**os.environ, "PYTHONPATH": path, "JUPYTER_PLATFORM_DIRS": "1", "HOME": room}
            ran = subprocess.run([sys.executable, *words], env=how, capture_output=True, text=True)
            self.assertEqual(ran.returncode, 0, ran.stderr[-2000:])
            self.assertEqual(told_by(made), told_by(NOTEBOOK))


def told_by(file):
    """What the cells of a notebook told, in words. A plot's are those of matplotlib."""
    cells = json.loads(file.read_text())["cells"]
    outputs = [it for cell in cells for it in cell.get("outputs", [])]
    told = [it.get("data", {"text/plain": it.get("text")}) for it in outputs]
    return ["".join(it.get("text/plain") or ()) for it in told if "image/png" not in it]


if __name__ == "__main__":
    unittest.main()
