"""A program is run with faults: what fails in it, and what it leaves."""
from __future__ import annotations

import os
import resource
import signal
import subprocess
import tempfile
from dataclasses import dataclass, field

HERE = os.path.dirname(os.path.abspath(__file__))
# a program that hasn't ended by then waits for ever
MOST_SECONDS = 20
FOR_EVER = 1 << 40
# numbers of fail.c
ONE_BYTE, NOTHING = -1, -2
# whose limits are set beside what is asked: the processes that are started write no core files
NO_CORE = (resource.RLIMIT_CORE, 0)


@dataclass(frozen=True)
class Fault:
    """What fails: the calls of a kind from the first number to the last one, every so many, in a way of fail.c."""

    kind: str
    how: int
    first: int
    last: int
    step: int = 1

    def environment(self):
        return {
            "FAIL_KIND": self.kind,
            "FAIL_HOW": str(self.how),
            "FAIL_FIRST": str(self.first),
            "FAIL_LAST": str(self.last),
            "FAIL_STEP": str(self.step),
        }


@dataclass(frozen=True)
class Call:
    """A call that the program made: its kind, its number among those, the file that it was of, and whether it failed."""

    kind: str
    number: int
    name: str
    failed: bool


@dataclass
class Ran:
    """What a run left: its status (negative: the signal that ended it; None: it didn't end), its outputs, its files, and its calls."""

    status: int | None
    out: bytes
    errors: bytes
    files: dict[str, bytes]
    calls: list[Call] = field(default_factory=list)

    def hits(self):
        """The calls that failed."""
        return [it for it in self.calls if it.failed]


def build(folder):
    """Compiles fail.c, and gives the library's path. It raises CalledProcessError or OSError where there is no C compiler."""
    path = os.path.join(folder, "fail.so")
    words = [os.environ.get("CC", "cc"), "-O2", "-shared", "-fPIC", "-o", path, os.path.join(HERE, "fail.c"), "-ldl"]
    subprocess.run(words, check=True, capture_output=True)
    return path


def store_all(room, files):
    for name, data in files.items():
        path = os.path.join(room, name)
        os.makedirs(os.path.dirname(path), exist_ok=True)
        with open(path, "wb") as file:
            file.write(data)


def files_in(room):
    """The files of a folder by their names, those that aren't regular files left out."""
    paths = [os.path.join(at, name) for at, _, names in os.walk(room) for name in names]
    found = {}
    for path in paths:
        if os.path.isfile(path) and not os.path.islink(path):
            with open(path, "rb") as file:
                found[os.path.relpath(path, room)] = file.read()
    return found


def calls_in(path):
    """The calls of a log that fail.c wrote."""
    if not os.path.exists(path):
        return []
    with open(path, encoding="utf-8", errors="surrogateescape") as log:
        lines = [line.rstrip("\n") for line in log]
    found = []
    for line in lines:
        failed = line.endswith(" !")
        kind, number, name = line.removesuffix(" !").split(" ", 2)
        found.append(Call(kind, int(number), name, failed))
    return found


def limited(limits):
    """Sets limits of the process that is started. A file that gets too large is an error of its write, and ends no process."""

    def apply():
        signal.signal(signal.SIGXFSZ, signal.SIG_IGN)
        for which, most in (NO_CORE, *limits):
            resource.setrlimit(which, (most, most))

    return apply


def run(words, files, shim=None, fault=None, limits=()):
    """Runs a program over these files in a new folder: with the shim's log and a fault, or within limits of the system."""
    with tempfile.TemporaryDirectory(prefix="faults-") as top:
        room, log = f"{top}/room", f"{top}/log"
        os.mkdir(room)
        store_all(room, files)
        environment = {"PATH": os.environ.get("PATH", "")}
        if shim:
            environment |= {"LD_PRELOAD": shim, "FAIL_LOG": log} | (fault.environment() if fault else {})
        how = {"cwd": room, "env": environment, "stdin": subprocess.DEVNULL, "capture_output": True, "timeout": MOST_SECONDS}
        try:
            ran = subprocess.run(words, preexec_fn=limited(limits), check=False, **how)
            status, out, errors = ran.returncode, ran.stdout, ran.stderr
        except subprocess.TimeoutExpired as late:
            status, out, errors = None, late.stdout or b"", late.stderr or b""
        return Ran(status, out, errors, files_in(room), calls_in(log))
