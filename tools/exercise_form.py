"""Reads exercises, and judges programs by the built program, for tools/exercises. No proof speaks for it."""
import re
import subprocess
from dataclasses import dataclass, field
from pathlib import Path

TOP = Path(__file__).resolve().parent.parent
PROGRAM = TOP / "out/pramx"
WORD = 2**32
SECONDS = 300
PARTS = ["given", "start", "reference"]
BARS = ["time", "operations", "steps"]
MODELS = ["EREW", "CREW", "common", "priority"]
NAME = r"[A-Za-z_]\w*"


class Refused(Exception):
    """What is wrong with an exercise, or with a program that is handed in."""


@dataclass
class Input:
    """Settings, and how long each array is and where the bars are with them."""

    line: str
    settings: dict
    bars: dict
    wanted: dict


@dataclass
class Exercise:
    name: str
    title: str = ""
    task: list = field(default_factory=list)
    want: list = field(default_factory=list)
    model: str = ""
    may_leave: bool = False
    lines: int = 0
    bars: dict = field(default_factory=dict)
    parts: dict = field(default_factory=dict)
    inputs: list = field(default_factory=list)


def words_of(line):
    return re.findall(r"\w+", line.split(";")[0])


def key_of(line):
    """What a line before `code` is about: its first word, and the name that it declares."""
    first, *others = words_of(line) or [""]
    return (first, *others[:1]) if first in ("const", "procs", "shared") else (first,)


def thrown(seed, below, count):
    values = []
    for _ in range(count):
        seed = (1664525 * seed + 1013904223) % WORD
        values.append(seed * below // WORD)
    return values


def read(path):
    """The exercise of a file; its inputs are worked out by the program."""
    lines = path.read_text(encoding="ascii").split("\n")
    if lines[0] != "exercise 1":
        raise Refused(f"{path.name}:1: this is no exercise")
    found = Exercise(path.stem)
    told, part = [], None
    for number, line in enumerate(lines[1:], 2):
        if part is not None and (not line or line[0] in " \t"):
            part.append(line)
            continue
        if not line.strip() or line.strip().startswith(";"):
            continue
        part = None
        try:
            part = take(found, told, line)
        except (ValueError, Refused) as fault:
            raise Refused(f"{path.name}:{number}: {fault or line}") from fault
    whole(found)
    for line in told:
        try:
            found.inputs.append(input_of(found, line))
        except Refused as fault:
            raise Refused(f"{path.name}: {line[:60]}: {fault}") from fault
    return found


def take(found, told, line):
    """Takes a line outside of program parts; of a part the list that takes what follows."""
    key, _, rest = line.partition(" ")
    if key in ("input", "hidden"):
        told.append(line)
    elif key == "task":
        found.task.append(rest)
    elif line in PARTS:
        return found.parts.setdefault(only(line, line not in found.parts), [])
    elif key in BARS and rest.startswith("<= "):
        only(key, key not in found.bars)
        found.bars[key] = rest[3:]
    elif key == "lines" and rest.startswith("<= "):
        found.lines = int(only(rest[3:], not found.lines))
    elif key == "want":
        found.want = only(rest.split(), not found.want)
    elif key == "title":
        found.title = only(rest, not found.title)
    elif line == "gone allowed":
        found.may_leave = only(True, not found.may_leave)
    elif key == "model" and rest in MODELS:
        found.model = only(rest, not found.model)
    else:
        raise Refused(f"no line of an exercise: {line}")
    return None


def only(value, is_first):
    if not is_first:
        raise Refused("said twice")
    return value


def whole(found):
    lacking = [it for it in ("title", "task", "want") if not getattr(found, it)]
    lacking += [it for it in ("given", "start") if it not in found.parts]
    if lacking:
        raise Refused(f"{found.name}: lacks {', '.join(lacking)}")


def input_of(exercise, line):
    settings_told, _, wanted_told = line.partition(" -> ")
    settings = dict(it.split("=") for it in settings_told.split()[1:])
    wanted = dict(it.split("=") for it in wanted_told.split())
    constants = {name: value for name, value in settings.items() if value.isdigit()}
    asked = {f"bar {it}": bar for it, bar in exercise.bars.items()}
    asked |= {f"length {name}": length for name, length in lengths(exercise).items()}
    known = worked_out(exercise, constants, asked)
    for name, value in settings.items():
        if f"length {name}" in known:
            settings[name] = values_of(value, known[f"length {name}"])
    found = Input(line, settings, {it: known[f"bar {it}"] for it in exercise.bars}, {})
    found.wanted = {name: values_of(value, known[f"length {name}"]) for name, value in wanted.items()}
    if not wanted and "reference" in exercise.parts:
        answer = answer_of("\n".join(header(exercise, found) + exercise.parts["reference"]))
        found.wanted = {name: answer[name] for name in exercise.want}
    if set(found.wanted) != set(exercise.want):
        raise Refused("what is wanted is not said")
    return found


def lengths(exercise):
    """How many places each shared name of the header has."""
    found = {}
    for line in exercise.parts["given"]:
        told = re.match(rf"\s*shared ({NAME})(?:\[([^\]]*)\])?", line)
        if told:
            found[told[1]] = "*".join(f"({it})" for it in (told[2] or "1").split(","))
    return found


def worked_out(exercise, constants, asked):
    """The values of expressions over the constants of the header."""
    if not asked:
        return {}
    names = {f"asked_{k}": it for k, it in enumerate(asked)}
    lines = [with_setting(it, constants) for it in exercise.parts["given"] if key_of(it)[0] == "const"]
    lines += [f"shared {name} = {asked[it]}" for name, it in names.items()]
    answer = answer_of("\n".join(["pardo 1", "rule crew", *lines, "procs asker < 1", "code", "asked_0 := asked_0"]))
    return {it: answer[name][0] for name, it in names.items()}


def values_of(value, length):
    """The values that a setting says, as many as there are places."""
    if value.startswith("any:"):
        _, seed, below = value.split(":")
        return thrown(int(seed), int(below), length)
    told = value.split(",")
    if told[-1] == "...":
        told[-1:] = [told[-2]] * (length - len(told) + 1)
    if len(told) != length:
        raise Refused(f"{len(told)} values for {length} places")
    return [int(it) for it in told]


def with_setting(line, settings):
    """A line of the header as the settings have it."""
    kind, *name = key_of(line)
    if not name or name[0] not in settings or kind == "procs":
        return line
    value = settings[name[0]]
    values = value if isinstance(value, str) else ", ".join(map(str, value))
    declared = re.match(rf"\s*{kind}\s+{NAME}\s*(\[[^\]]*\])?", line)[0]
    return f"{declared} = {values}"


def header(exercise, given):
    return [with_setting(it, given.settings) for it in exercise.parts["given"]]


def program_for(exercise, text, given):
    """A text that is handed in, with the lines of the header as this input sets them."""
    lines = text.split("\n")
    code = next((k for k, line in enumerate(lines) if words_of(line) == ["code"]), len(lines))
    own = {key_of(it): it for it in header(exercise, given) if words_of(it)}
    missing = own.keys() - map(key_of, lines[:code])
    if missing:
        raise Refused(f"it lacks the line {' '.join(min(missing))}")
    return "\n".join([own.get(key_of(it), it) for it in lines[:code]] + lines[code:])


def ran(command, text, *words):
    how = {"capture_output": True, "text": True, "timeout": SECONDS}
    try:
        return subprocess.run([PROGRAM, command, "-", *words], input=text, **how)
    except subprocess.TimeoutExpired:
        raise Refused(f"not ended after {SECONDS} seconds") from None


def end_of(text):
    """The values of a program's shared names at its end, and who is gone in which line."""
    made = ran("plain", text, "--csv")
    if made.returncode:
        raise Refused((made.stdout + made.stderr).strip())
    values, gone = {}, []
    for row in made.stdout.split("\n")[1:]:
        name, *others = row.split(",")
        if name == "gone processor":
            gone.append(others)
        elif others:
            values.setdefault(name, []).append(int(others[-1]))
    return values, gone


def answer_of(text):
    """The values of a program's shared names at its end."""
    return end_of(text)[0]


def gone_on(exercise, text, given):
    """Who is gone at the end of a program that is handed in, if that is not allowed."""
    gone = [] if exercise.may_leave else end_of(program_for(exercise, text, given))[1]
    return f"processor {gone[0][0]} is gone in line {gone[0][1]}" if gone else ""


def costs_of(text):
    """What a run costs, and the number of the weakest model that it needs."""
    told = dict(it.rpartition(" ")[::2] for it in ran("cost", text).stdout.split("\n") if it)
    model = next(told[it] for it in ("needs", "needs CRCW") if it in told)
    return {it: int(told[it]) for it in BARS}, MODELS.index(model)


def try_on(exercise, text, given):
    """Refuses a program for the first thing that is wrong on an input."""
    program = program_for(exercise, text, given)
    answer = answer_of(program)
    for name, values in given.wanted.items():
        for place, (found, wanted) in enumerate(zip(answer[name], values)):
            if found != wanted:
                raise Refused(f"{name}[{place}] holds {found}, wanted {wanted}")
    fault = gone_on(exercise, text, given)
    if fault:
        raise Refused(fault)
    if not given.bars:
        return
    costs, model = costs_of(program)
    for it, bar in given.bars.items():
        if costs[it] > bar:
            raise Refused(f"{it} {costs[it]}, at most {bar}")
    if exercise.model and model > MODELS.index(exercise.model):
        raise Refused(f"it needs {MODELS[model]}")


def fault_on(exercise, text, given):
    """The first thing that is wrong with a program on an input, or nothing."""
    try:
        try_on(exercise, text, given)
    except Refused as fault:
        return str(fault)
    return ""


def fault_of(exercise, text, inputs=None):
    """The first thing that is wrong with a program, with the input, or nothing."""
    rows = text.split("\ncode\n", 1)[-1].split("\n")
    if exercise.lines and sum(bool(it.split(";")[0].strip()) for it in rows) > exercise.lines:
        return f"more than {exercise.lines} lines"
    for given in inputs or exercise.inputs:
        fault = fault_on(exercise, text, given)
        if fault:
            return f"{given.line[:120]}: {fault}"
    return ""
