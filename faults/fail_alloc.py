#!/usr/bin/env python3
"""fail_alloc.py PROGRAM FILE.cases.. [=TEXT]: runs the cases with the line `memory` with each allocation refused, one after the other.

PROGRAM is the built `sessions`, which runs cases over files in memory (docs/CASES.md). For each case, or those whose names have the text,
the first allocation of the process is refused, then the second, and so on until none is left; then each one and all after it. An end by a
signal, no end, and a line FAIL are wrong: a case that runs out of memory leaves the first part of what it must. Where memory runs out for
the runner itself, it ends with no such line. A line for each case says how many runs there were, and in how many of them it passed.

The status is 0 where nothing is wrong, 1 where something is, and 2 where a file isn't a corpus, or there is no such program or no C
compiler.
"""
from __future__ import annotations

import errno
import os
import subprocess
import sys
import tempfile
from concurrent.futures import ThreadPoolExecutor

HERE = os.path.dirname(os.path.abspath(__file__))
sys.path.insert(0, HERE)
sys.path.insert(0, f"{os.path.dirname(HERE)}/tools")

import corpus
import shim

PASSED = b"sessions: 1 passed, 0 failed\n"


def wrong_in(ran):
    """What is wrong in a run of the runner, or None."""
    if ran.status is None:
        return f"it hadn't ended after {shim.MOST_SECONDS} seconds"
    if ran.status < 0:
        return f"it ended by the signal {-ran.status}"
    found = ran.out.find(b"FAIL ")
    return ran.out[found:].decode(errors="replace").rstrip() if found >= 0 else None


class Sweep:
    """The runs of one case, in each of which an allocation is refused."""

    def __init__(self, program, library, path, case, pool):
        self.words = [os.path.abspath(program), f"=={case.name}", os.path.abspath(path)]
        self.library, self.pool = library, pool
        self.runs, self.passed, self.wrong = 0, 0, []

    def run(self, fault):
        return shim.run(self.words, {}, self.library, fault)

    def tell(self, what, ran):
        """Counts a run, and says what is wrong in it."""
        self.runs += 1
        self.passed += ran.out.endswith(PASSED)
        wrong = wrong_in(ran)
        if wrong:
            self.wrong.append(f"{what}: {wrong}")

    def all(self):
        """Refuses each allocation, and each with all after it, until none is left to be refused."""
        plain = self.run(None)
        count = sum(it.kind == "memory" for it in plain.calls)
        self.tell("no allocation is refused", plain)
        if not plain.out.endswith(PASSED):
            self.wrong.append(f"no allocation is refused: the case isn't run alone: {plain.out[-200:]!r}")
        for last in (0, shim.FOR_EVER):
            faults = [shim.Fault("memory", errno.ENOMEM, n, last or n) for n in range(1, count + 1)]
            for fault, ran in zip(faults, self.pool.map(self.run, faults)):
                self.tell(f"allocation {fault.first}{' and all after it' if last else ''} refused", ran)


def picked(words):
    """The cases with `memory` of the files among words whose names have the texts among them, each behind its file."""
    texts = [word[1:] for word in words if word.startswith("=")]
    found = [(word, case) for word in words if not word.startswith("=") for case in corpus.read(word).cases]
    return [it for it in found if it[1].may_lack_memory and all(text in it[1].name for text in texts)]


def sweep(program, cases, library):
    """Runs the cases, and gives how many things are wrong."""
    count = 0
    with ThreadPoolExecutor(len(os.sched_getaffinity(0))) as pool:
        for path, case in cases:
            found = Sweep(program, library, path, case, pool)
            found.all()
            print(f"{case.name}: {found.runs} runs, {found.passed} passed, {len(found.wrong)} wrong", flush=True)
            for it in found.wrong:
                print(f"WRONG {it}")
            count += len(found.wrong)
    return count


def main(words):
    if len(words) < 2 or not os.access(words[0], os.X_OK):
        print(__doc__.strip(), file=sys.stderr)
        return 2
    with tempfile.TemporaryDirectory(prefix="faults-") as room:
        try:
            count = sweep(words[0], picked(words[1:]), shim.build(room))
        except (corpus.NotACorpus, OSError, subprocess.CalledProcessError) as error:
            print(f"fail_alloc.py: {error}", file=sys.stderr)
            return 2
    return 1 if count else 0


if __name__ == "__main__":
    sys.exit(main(sys.argv[1:]))
