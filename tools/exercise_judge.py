"""Judges many texts by an exercise with the program's proved judge, for tools/exercises."""
import concurrent.futures
import csv
import subprocess
import tempfile
from pathlib import Path

import exercise_form as form

# So many texts are judged by one process.
BATCH = 200


def with_inputs(text, lines, without=()):
    """The text of an exercise with other inputs, and without some of its lines."""
    left = ["input", "hidden", *without]
    kept = [it for it in text.split("\n") if it.split(" ")[0] not in left]
    return "\n".join([*kept, *("input " + it.partition(" ")[2] for it in lines), ""])


def judged(exercise, texts):
    """The judge's record of each text."""
    with tempfile.TemporaryDirectory() as folder:
        asked = Path(folder) / "asked.exercise"
        asked.write_text(exercise)
        files = [Path(folder) / f"{k}.pardo" for k in range(len(texts))]
        for file, text in zip(files, texts):
            file.write_text(text)
        made = subprocess.run([form.PROGRAM, "judge", asked, *files], capture_output=True, text=True)
    if made.returncode not in (0, 1):
        raise form.Refused(made.stderr.strip())
    records = list(csv.DictReader(made.stdout.split("\n")))
    assert len(records) == len(texts)
    return records


def fault_in(record, lines):
    """The first input that a text fails and what is wrong, or nothing. One that was not judged has no input."""
    if record["passed"] == "yes":
        return ""
    under = f"{lines[int(record['input']) - 1][:120]}: " if record["input"] else ""
    return under + record["what"]


def faults_of(exercise, lines, texts, jobs, without=()):
    """What is wrong first with each text under other inputs of an exercise, or nothing."""
    asked = with_inputs(exercise, lines, without)
    batches = [texts[k : k + BATCH] for k in range(0, len(texts), BATCH)]
    with concurrent.futures.ThreadPoolExecutor(jobs) as pool:
        told = list(pool.map(lambda batch: judged(asked, batch), batches))
    return [fault_in(record, lines) for batch in told for record in batch]
