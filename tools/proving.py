"""Proves and builds the program, for tools/build, tools/prove and tools/release.

One rt ci works over a copy of the crates that the program needs, without their wrong bodies. So
they are proved side by side, by the gate's own schedule, and share the proofs that gates on this
machine keep. Nothing is written into the repository before the program is there.
"""
import contextlib
import fcntl
import functools
import hashlib
import os
from pathlib import Path
import re
import shutil
import signal
import subprocess
import sys
import tempfile
import time

TOP = Path(__file__).resolve().parent.parent
PROGRAM = TOP / "out/pramx"
RECORD = TOP / "out/pramx.sums"
# Where tools/archive leaves the library for C.
LIBRARY = "crates/kaolinsilk_c/out/libkaolinsilk_c.a"
# Who speaks: tools/build does so for ./pramx.
NAME = Path(sys.argv[0]).name.replace("build", "pramx")
# What a proof from nothing may need on the disk, in GB.
ROOM = 8


class NotBuilt(Exception):
    """Why the program was not built."""


FAULTS = (OSError, subprocess.SubprocessError, NotBuilt)


def say(text):
    # Standard error may be closed, and print would then take standard output.
    with contextlib.suppress(OSError, AttributeError):
        sys.stderr.write(f"{NAME}: {text}\n")
        sys.stderr.flush()


def fail(error, status):
    """Says why nothing was built, and ends. An error that has many others tells the first."""
    if isinstance(error, shutil.Error):
        error = error.args[0][0][-1]
    say(error if isinstance(error, NotBuilt) else f"it was not built: {error}"[:400])
    sys.exit(status)


def sources(*words):
    """What tools/sources prints: the sum of the sources, or their lines of crates.txt."""
    command = ["bash", TOP / "tools/sources", *words]
    return subprocess.run(command, check=True, capture_output=True, text=True).stdout.strip()


def name_of(line):
    """The crate of a line of crates.txt."""
    return line.replace(":", " ").split()[0]


def sum_of(file):
    return hashlib.sha256(file.read_bytes()).hexdigest()


# How long it takes.


def costs():
    """The processor seconds of each crate's proof, as docs/gate.csv has them. Where there is none
    nothing is known, and nothing fails."""
    try:
        rows = (TOP / "docs/gate.csv").read_text(encoding="utf-8", errors="replace").splitlines()
    except OSError:
        rows = []
    cells = [row.split(",") for row in rows]
    return {it[0]: float(it[1]) for it in cells if len(it) > 1 and it[1].isdigit()}


class Progress:
    """Tells each minute how many crates are proved, and how many minutes are left: by the table of
    docs/gate.csv, at the pace of the proved ones."""

    def __init__(self, lines):
        known = costs()
        self.uses = {name_of(line): line.partition(":")[2].split() for line in lines}
        self.seconds = {name: known.get(name, 60) for name in self.uses}
        self.processors = len(os.sched_getaffinity(0))
        self.proved = set()
        self.began = self.told = time.monotonic()
        self.ends = self.began + self.work(())
        count = f"{len(self.uses)} crates on {self.processors} processors"
        say(f"proving {count}, {self.left()}, less where proofs are kept")

    def work(self, proved):
        """The seconds of the other crates: their longest chain, or each processor's share."""
        own = {name: it for name, it in self.seconds.items() if name not in proved}

        @functools.cache
        def chain(name):
            below = [chain(it) for it in self.uses[name] if it in self.uses]
            return own.get(name, 0) + max(below, default=0)

        return max(*map(chain, self.uses), sum(own.values()) / self.processors)

    def left(self):
        number = round((self.ends - time.monotonic()) / 60)
        return f"about {number} minutes" if number > 1 else "about a minute"

    def look(self, said):
        """Reads what rt said. The table counts as a quarter of the way, so that the first crates
        alone do not decide."""
        kept = set(re.findall(r"(?m)^rt: (\w+) is kept: ", said))
        proved = kept.union(re.findall(r"(?m)^rt: (\w+) proved$", said))
        now = time.monotonic()
        if proved != self.proved:
            whole, left, self.proved = self.work(kept), self.work(proved), proved
            pace = (now - self.began + whole / 4) / (whole * 5 / 4 - left or 1)
            self.ends = now + left * pace
        if now - self.told >= 60:
            self.told = now
            say(f"{len(proved)} of {len(self.uses)} crates are proved; {self.left()} left")


# The proof.


def make_copy(to, *words):
    """Makes a repository of the crates that are needed, and returns their lines."""
    lines = sources("--lines", *words).splitlines()
    (to / ".git").mkdir(parents=True)
    (to / "crates.txt").write_text("".join(f"{line}\n" for line in lines))
    shutil.copy(TOP / "HANDLES", to)
    left_out = shutil.ignore_patterns("out", "wrong-bodies")
    for name in map(name_of, lines):
        shutil.copytree(TOP / "crates" / name, to / "crates" / name, ignore=left_out, symlinks=True)
    return lines


@contextlib.contextmanager
def scratch():
    """A folder that ends with the block, also where a command that was ended still writes there."""
    room = Path(tempfile.mkdtemp(prefix="pramx-"))
    (room / "tmp").mkdir()
    # The kit runs the program as nobody, in a folder of tmp.
    for folder in (room, room / "tmp"):
        folder.chmod(0o711)
    try:
        yield room
    finally:
        late = time.monotonic() + 5
        while room.exists() and time.monotonic() < late:
            shutil.rmtree(room, ignore_errors=True)


@contextlib.contextmanager
def started(words, folder, room):
    """A command that ends with the block. What it says goes to the room's log, and what it writes
    for a time into the room's tmp."""
    with open(room / "log", "wb") as log:
        how = {"stdin": subprocess.DEVNULL, "stdout": log, "stderr": subprocess.STDOUT}
        where = {"cwd": folder, "env": {**os.environ, "TMPDIR": str(room / "tmp")}}
        command = subprocess.Popen(words, **how, **where)
    try:
        yield command
    finally:
        command.terminate()
        command.wait()


def fault(said, status):
    """Why rt built no program, and whether the sources are at fault."""
    if status < 0:
        return f"rt was ended by {signal.Signals(-status).name}", False
    full = re.search(r"(?m)^.*(No space left on device|the disk is full).*$", said)
    if full:
        return f"the disk is full: {full[0].strip()[:300]}", False
    what, crate = "it was not built", re.search(r"(?m)^rt: (\w+) NOT PROVED$", said)
    if crate:
        said = said[: crate.start()].rpartition(f"== {crate[1]}\n")[2]
        if re.search(r"(?m)^logic=not-proved|: error", said):
            return f"{crate[1]} is not proved: rt check in {TOP}/crates/{crate[1]} says why", True
        what = f"{crate[1]} was not built"
    lines = [line for line in said.splitlines() if line.startswith("rt: ")] or said.splitlines()
    return f"{what}: {lines[-1].strip()[:300] if lines else 'rt said nothing'}", False


def anew():
    """The word by which rt ci uses nothing that was kept. A kit that keeps nothing has none."""
    told = subprocess.run(["rt", "help"], capture_output=True, text=True, errors="replace")
    return ["--anew"] if "--anew" in told.stdout + told.stderr else []


def run(words, folder, program, room, look=lambda said: None):
    """Has rt prove and build the program. Where the machine is at fault, what rt said is kept."""
    log = room / "log"
    with started(["rt", *words], folder, room) as rt:
        while rt.poll() is None:
            with contextlib.suppress(subprocess.TimeoutExpired):
                rt.wait(1)
            look(log.read_text(errors="replace"))
    if rt.returncode or not program.is_file():
        why, is_theirs = fault(log.read_text(errors="replace"), rt.returncode)
        if not is_theirs:
            why += f"; all that rt said is in {log.replace(room.with_suffix('.log'))}"
        raise NotBuilt(why)


@contextlib.contextmanager
def proved(needed, *words):
    """A copy whose crates rt ci proved, with its program, and a room, while the block lasts."""
    with scratch() as room:
        free = shutil.disk_usage(room).free / 1e9
        if free < ROOM:
            say(f"{room.parent} has {free:.1f} GB left, and a proof may need {ROOM} there")
        copy = room / "copy"
        lines, program = make_copy(copy, *needed), copy / "crates/pramx/out/pramx"
        run(["ci", *words], copy, program, room, Progress(lines).look)
        yield copy, program, room


@contextlib.contextmanager
def built(*words):
    """The program, proved and built by rt ci, and the sum of its sources, while the block lasts."""
    with proved([], *words) as (copy, program, _):
        yield program, sources(copy)


@contextlib.contextmanager
def both_built(*words):
    """The program and the library for C, proved and built, and the copy that they were built in."""
    with proved(["--both"], *words) as (copy, program, room):
        subprocess.run([TOP / "tools/archive", copy], check=True)
        yield program, copy / LIBRARY, copy


@contextlib.contextmanager
def built_over_kept_work():
    """The same by rt run, over what rt kept in this repository."""
    say("proving what has changed, over the work that rt kept")
    crate, sum = TOP / "crates/pramx", sources()
    with scratch() as room:
        run(["run", "--", "--version"], crate, crate / "out/pramx", room)
        yield crate / "out/pramx", sum


# The program of out/.


def is_current():
    is_there = PROGRAM.is_file() and RECORD.is_file()
    return is_there and RECORD.read_text() == f"{sources()} {sum_of(PROGRAM)}\n"


def can_install():
    for folder in (TOP, PROGRAM.parent):
        if folder.exists() and not os.access(folder, os.W_OK):
            raise NotBuilt(f"it has to be built first, and {folder} cannot be written to")


def install(program, sum):
    """Puts the program where it is run from, whole or not at all."""
    out = PROGRAM.parent
    was_there = out.is_dir()
    out.mkdir(exist_ok=True)
    beside = out / f"pramx.{os.getpid()}"
    try:
        shutil.copy(program, beside)
        record = f"{sum} {sum_of(beside)}\n"
        beside.replace(PROGRAM)
        beside.write_text(record)
        beside.replace(RECORD)
    finally:
        beside.unlink(missing_ok=True)
        if not was_there and not PROGRAM.exists():
            out.rmdir()


# What each script begins with.


def begin():
    """Has signals end the blocks above in order, and waits until no other call builds."""
    for number in (signal.SIGINT, signal.SIGTERM, signal.SIGHUP):
        if signal.getsignal(number) is not signal.SIG_IGN:
            signal.signal(number, lambda number, _: sys.exit(128 + number))
    # A folder is locked, so that no file is left. Some file systems have no locks.
    held = os.open(TOP / "crates", os.O_RDONLY)
    try:
        fcntl.flock(held, fcntl.LOCK_EX | fcntl.LOCK_NB)
    except BlockingIOError:
        say("another call builds it, which this one waits for")
        fcntl.flock(held, fcntl.LOCK_EX)
    except OSError:
        pass
