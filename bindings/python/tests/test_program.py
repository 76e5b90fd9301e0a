"""Each call beside the program pramx, byte for byte: over the gallery, and over mutated texts."""
import random
import unittest

import kaolinsilk
from common import GALLERY, needs_program, pramx
from kaolinsilk import _library

PLAN = b"worker,act,ticks\n0,go,9\n0,back,0\n1,go,50\n1,stop,0\n2,sleep,4\n"


def told(name, *texts, **asked):
    """What a call tells, as the program tells it: of a plan with --explain."""
    try:
        status, output = _library.told(name, *texts, **asked)
        return status, output, b""
    except kaolinsilk.Refused as refused:
        row = "row" if refused.subject == "plan" else "line"
        said = f"{refused.subject} {row}={refused.line} kind={refused.kind}\n"
        if row == "row":
            said += f"standard input, row {refused.line}: {refused.sentence}\n"
        return _library.REFUSED, b"", said.encode()


@needs_program
class Beside(unittest.TestCase):
    def each_alike(self, texts):
        calls = (
            ("ks_check", ["check", "-"], {}),
            ("ks_compile", ["compile", "-"], {}),
            ("ks_plain", ["plain", "-"], {}),
            ("ks_plain", ["plain", "-", "--why"], {"why": 1}),
            ("ks_cost", ["cost", "-"], {}),
            ("ks_steps", ["steps", "-", "--to", "7"], {"first": 1, "last": 7}),
            ("ks_steps", ["steps", "-", "--csv"], {"rows_alone": 1}),
        )
        for number, text in enumerate(texts):
            for name, words, asked in calls:
                with self.subTest(text=number, words=words):
                    ran = pramx(*words, text=text)
                    self.assertEqual(told(name, text, **asked), ran)

    def test_the_gallery(self):
        self.each_alike(file.read_bytes() for file in GALLERY)

    def test_mutated_texts(self):
        chosen = random.Random(7)
        files = [file.read_bytes() for file in GALLERY]
        self.each_alike(mutated(chosen, chosen.choice(files)) for _ in range(150))

    def test_replays(self):
        for file in GALLERY:
            for workers in (1, 3):
                plan = PLAN if workers == 3 else b""
                with self.subTest(file=file.name, workers=workers):
                    words = ["replay", file, "--workers", str(workers), "--plan", "-"]
                    has = told("ks_replay", file.read_bytes(), plan, workers=workers)
                    self.assertEqual(has, pramx(*words, text=plan))

    def test_mutated_plans(self):
        chosen = random.Random(8)
        file = GALLERY[0]
        for _ in range(100):
            plan = mutated(chosen, PLAN)
            words = ["replay", file, "--workers", "3", "--plan", "-", "--explain", "--csv"]
            has = told("ks_replay", file.read_bytes(), plan, workers=3, rows_alone=1)
            self.assertEqual(has, pramx(*words, text=plan))

    def test_answers_by_names(self):
        for file in GALLERY:
            answer = kaolinsilk.run(file, workers=3)
            status, output, _ = pramx("run", file, "--workers", "3")
            with self.subTest(file=file.name):
                has = (answer.status, answer.text)
                self.assertEqual(has, (_library.WORDS[status], output.decode()))
                self.assertEqual(answer, kaolinsilk.plain(file))


def mutated(chosen, text):
    """A text with two bytes of it exchanged."""
    changed = bytearray(text)
    for _ in range(2):
        changed[chosen.randrange(len(changed))] = chosen.randrange(256)
    return bytes(changed)


if __name__ == "__main__":
    unittest.main()
