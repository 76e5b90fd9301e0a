"""What the tests share: the gallery, and the program that they compare with."""
import os
import subprocess
import unittest
from pathlib import Path

TOP = Path(__file__).resolve().parents[3]
EXAMPLES = TOP / "examples"
GALLERY = sorted([*EXAMPLES.glob("*.pram"), *EXAMPLES.glob("*.pardo")])
# The program that is compared with: it is that of out/, where the variable names no other.
PROGRAM = Path(os.environ.get("KAOLINSILK_PROGRAM", TOP / "out/pramx"))

PREFIX = (EXAMPLES / "prefix.pardo").read_text()
STARTS = [3, 1, 4, 1, 5, 9, 2, 6]
SUMS = [3, 4, 8, 9, 14, 23, 25, 31]
CONFLICT = (EXAMPLES / "conflict.pardo").read_text()
MISTAKEN = CONFLICT.replace(" := ", " = ")
# One processor, one step.
TINY = "pram 1\ncells 1\nprocs 1\nsteps 1\ncode\nst r0 r0\n"

needs_program = unittest.skipUnless(os.access(PROGRAM, os.X_OK), "there is no program pramx")


def pramx(*words, text=b""):
    """The status of the program, its output and what it says on standard error."""
    ran = subprocess.run([PROGRAM, *words], input=text, capture_output=True, check=False)
    return ran.returncode, ran.stdout, ran.stderr


def answer_beside(file):
    """The answer of an example, as it stands beside it."""
    return (file.with_suffix(".out") if file.suffix == ".pram" else Path(f"{file}.out")).read_text()
