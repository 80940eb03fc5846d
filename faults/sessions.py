"""The sessions in which calls are made to fail: one of each command, of refusals, and one with a mixed phase."""
from __future__ import annotations

import itertools
import os
import struct
import sys
from dataclasses import dataclass, field

HERE = os.path.dirname(os.path.abspath(__file__))
ROOT = os.path.dirname(HERE)
sys.path.insert(0, f"{ROOT}/tools")

import corpus

# the cases of the corpus that are run, by their files: what each must leave was worked out by hand there
CASES = (
    ("examples", "one client plays one file"),
    ("examples", "two clients and a reader at once"),
    ("readers", "a reader that isn't called in time has an xrun"),
    ("workloads", "the smallest workload"),
    ("parameters", "what a slave leaves"),
    ("devices", "the mixer of alsa-lib's manual"),
    ("words", "the help"),
    ("words", "the version"),
    ("words", "no words"),
    ("scripts", "a script without words"),
    ("refusals", "an empty file"),
    ("conf", "quotes that a line's end leaves open"),
    ("checks", "the check of a run of one client"),
    ("checks", "a sample that is another"),
)
# the files that `make` stores whole; all other WAV files that a session leaves are begun with an open head
STORED = ("made-0.wav",)


@dataclass
class Outcome:
    """What a session may leave where nothing fails: standard output, and the files that are other ones than before."""

    out: bytes
    leaves: dict[str, bytes] = field(default_factory=dict)


@dataclass
class Session:
    """A call of the program with these words over these files, its status where nothing fails, what is on standard error then, and what it
    may leave: one outcome, or several where the order of the threads decides."""

    name: str
    words: list[bytes]
    files: dict[str, bytes]
    status: int
    errors: bytes
    outcomes: list[Outcome]

    def outputs(self):
        """The files that it writes."""
        return {name for outcome in self.outcomes for name in outcome.leaves}

    def inputs(self):
        """The files that it reads: those that are there, and those that its words name."""
        return {*self.files, *(word.decode() for word in self.words[1:])} - self.outputs()

    def begun(self):
        """The files that it begins with a head whose sizes aren't known yet."""
        return {name for name in self.outputs() if name.endswith(".wav") and name not in STORED}


def of_corpus(subject, name):
    """The session of a case."""
    path = f"{ROOT}/crates/sessions/data/{subject}.cases"
    case = next(it for it in corpus.read(path).cases if it.name == name)
    outcome = Outcome(case.out, case.leaves)
    return Session(f"{subject}: {name}", case.words, case.files, case.status, case.errors, [outcome])


def wav(samples):
    """The canonical WAV file of mono samples at 48000 Hz."""
    return corpus.wav(1, 48000, struct.pack(f"<{len(samples)}h", *samples))


# In phase 2 the card plays one period while both clients begin and the reader looks: each sees the card before it or after it.
MIXED_SCRIPT = b"""card channels 1 rate 48000 period 64 ring 256 capture c.wav
client a a.wav
client b b.wav
reader r
open a
open b
open r
phase
r start
end
phase
card play 64
a write 64
b write 64
r sync
end
phase
card play 128
end
phase
r read 192
end
"""
MIXED_REPORT = """dmixlab 1
0 a open = ok PREPARED -
0 b open = ok PREPARED -
0 r open = ok PREPARED -
1 r start = ok RUNNING 0
2 card play 64 = 64 RUNNING 64
2 a write 64 = 64 RUNNING {a}
2 b write 64 = 64 RUNNING {b}
2 r sync = ok RUNNING {r}
3 card play 128 = 128 RUNNING 192
4 r read 192 = 192 RUNNING 192
segment a 0 {a_first} 64 0
segment b 0 {b_first} 64 0
run r 0 192
played 0 192
end
"""
# the samples of a and of b, whose sum is above the greatest sample
LOW, HIGH = 1000, 32000
GREATEST = 32767


def mixed_outcome(a, b, r):
    """The outcome where client a saw the card at the frame a, client b at b, and the reader at r: a client begins one period later."""
    report = MIXED_REPORT.format(a=a, b=b, r=r, a_first=a + 64, b_first=b + 64)
    played = [0] * 192
    for first, sample in ((a + 64, LOW), (b + 64, HIGH)):
        for frame in range(first, first + 64):
            played[frame] = min(played[frame] + sample, GREATEST)
    return Outcome(report.encode(), {"o.wav": wav(played), "o.r.wav": wav(list(range(192)))})


def mixed():
    """Two clients and a reader beside the card, which captures a file; one client's file has more than a piece of 65,536 bytes."""
    files = {"s": MIXED_SCRIPT, "a.wav": wav([LOW] * 40000), "b.wav": wav([HIGH] * 64), "c.wav": wav(list(range(512)))}
    outcomes = [mixed_outcome(*seen) for seen in itertools.product((0, 64), repeat=3)]
    return Session("clients and a reader beside the card", [b"run", b"s", b"o"], files, 0, b"", outcomes)


def missing():
    """A script that isn't there."""
    return Session("a missing script", [b"run", b"s", b"o"], {}, 4, b"dmixlab: read s\n", [Outcome(b"")])


def all_sessions():
    return [*(of_corpus(*it) for it in CASES), mixed(), missing()]
