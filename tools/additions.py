"""Adds something to a copy of the repository, step by step, for tools/instruction and tools/command.

Before each step a crate is checked, or its tests are tried, and what is said has to name what the step adds: so nothing that is missing
is passed over. The crates that the steps are about are copied, with those below them and the work in out/. RT is the command rt, if it
goes by another name.

A step is what it adds; which command in which crate asks for it, and by which words; and changes: a file, a text that stands in it once,
or None for a new file, and what is put behind that text, or in its place where a change has four parts.
"""
import os
import re
import subprocess
import sys
import tempfile
from pathlib import Path

TOP = Path(__file__).resolve().parent.parent
RT = os.environ.get("RT", "rt")


def copy(room, wanted):
    """Copies these crates, or all, and all below them."""
    lines = (TOP / "crates.txt").read_text().splitlines()
    below = {it.split(":")[0].split()[0]: it.partition(":")[2].split() for it in lines if it.strip()}
    needed, left = set(), list(wanted or below)
    while left:
        name = left.pop()
        if name in below and name not in needed:
            needed.add(name)
            left += below[name]
    (room / "crates").mkdir()
    for name in needed:
        subprocess.run(["cp", "-a", "--reflink=auto", TOP / "crates" / name, room / "crates"], check=True)
    kept = [it for it in lines if it.strip() and it.split(":")[0].split()[0] in needed]
    (room / "crates.txt").write_text("".join(f"{it}\n" for it in kept))
    (room / "HANDLES").write_text((TOP / "HANDLES").read_text())
    return [it.split(":")[0].split()[0] for it in kept]


def naming(word):
    """The crates whose code or proofs have a word, but for tests, in the order of crates.txt."""
    lines = (TOP / "crates.txt").read_text().splitlines()
    crates = [it.split(":")[0].split()[0] for it in lines if ":" in it]
    return tuple(it for it in crates if not it.endswith("_tests") and has_word(TOP / "crates" / it, word))


def has_word(folder, word):
    files = (it for part in ("src", "specs", "proofs") for it in folder.glob(f"{part}/**/*") if it.suffix in (".rt", ".antt"))
    return any(re.search(rf"\b{word}\b", it.read_text()) for it in files)


def change(room, file, before, added, replaces=False):
    path = room / file
    if before is None:
        path.parent.mkdir(parents=True, exist_ok=True)
        path.write_text(added)
        return
    text = path.read_text()
    if text.count(before) != 1:
        sys.exit(f"{file}: stands there {text.count(before)} times, not once: {before}")
    path.write_text(text.replace(before, added if replaces else before + added))


def told(room, crate, command):
    """What a command says of a crate that it refuses; None where it passes."""
    ran = subprocess.run([RT, *command.split()], cwd=room / "crates" / crate, stdin=subprocess.DEVNULL,
                         stdout=subprocess.PIPE, stderr=subprocess.STDOUT, text=True)
    return ran.stdout if ran.returncode else None


def asks(said, words):
    """The first line of what was said that has these words."""
    return next((it.strip() for it in said.splitlines() if re.search(words, it)), None)


def main(page, words, steps, proved, tested, most):
    """Makes the steps, and then checks and tries these crates; the status of the script."""
    if words not in ([], ["--all"]):
        print(page.strip())
        return 0 if words == ["--help"] else 2
    touched = set()
    with tempfile.TemporaryDirectory(prefix="additions-") as name:
        room = Path(name)
        crates = copy(room, [] if words else [*proved, *tested])
        for what, check, changes in steps:
            if check:
                crate, command, wanted = check
                said = told(room, crate, command)
                asked = said and asks(said, wanted)
                if not asked:
                    print(f"{crate}: {command} does not ask for {what}:\n{said}")
                    return 1
                print(f"{crate} says: {asked[:150]}", flush=True)
            print(f"- {what}: {', '.join(sorted({it[0] for it in changes}))}", flush=True)
            for it in changes:
                change(room, *it)
                touched.add(it[0])
        for crate in crates if words else proved:
            said = told(room, crate, "check")
            if said:
                print(f"{crate} is still refused:\n{said}")
                return 1
            print(f"{crate}: proved", flush=True)
        for crate in tested:
            said = told(room, crate, "try --test")
            if said:
                print(f"the tests of {crate} fail:\n{said}")
                return 1
            print(f"{crate}: its tests pass", flush=True)
    print(f"{len(touched)} files touched, at most {most} wanted")
    return int(len(touched) > most)
