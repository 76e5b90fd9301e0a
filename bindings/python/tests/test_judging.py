"""Submissions, judged by the exercises of the repository."""
import unittest

import kaolinsilk
from common import TOP

EXERCISES = TOP / "exercises"
# One of values, one of costs, one of a model.
NAMES = ("double", "sum", "seven")
SUM = (EXERCISES / "sum.exercise").read_text()


class Judging(unittest.TestCase):
    def test_right_answers_pass_and_no_others(self):
        for name in NAMES:
            files = sorted((EXERCISES / "answers" / name).glob("*.pardo"))
            self.assertGreater(len(files), 4)
            for file in files:
                with self.subTest(exercise=name, answer=file.name):
                    verdict = kaolinsilk.judge(EXERCISES / f"{name}.exercise", file)
                    self.assertEqual(bool(verdict), file.name.startswith("right-"))
                    self.assertEqual(verdict.passed, verdict == (True, None, ""))

    def test_what_is_no_program_has_not_passed(self):
        for submission in ("", "\0", b"\xff", "pardo 1\n"):
            verdict = kaolinsilk.judge(SUM, submission)
            self.assertEqual((verdict.passed, verdict.input), (False, 1))
            self.assertTrue(verdict.what.startswith('the line "'), verdict.what)

    def test_a_refused_exercise(self):
        for text, line, kind in (
            ("", 1, "BadHeader"),
            (SUM.replace("title", "tilte"), 2, "UnknownKey"),
            (SUM.replace("model EREW", "model"), 4, "BadLine"),
            (SUM.replace("input n=4 A", "input n=4 B"), 29, "Unknown"),
        ):
            with self.assertRaises(kaolinsilk.Refused) as caught:
                kaolinsilk.judge(text, "")
            refused = caught.exception
            told = (refused.subject, refused.line, refused.column, refused.kind)
            self.assertEqual(told, ("exercise", line, None, kind))
            self.assertTrue(str(refused).startswith(f"exercise, line {line}: {refused.sentence}"))


if __name__ == "__main__":
    unittest.main()
