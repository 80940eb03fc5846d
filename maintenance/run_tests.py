#!/usr/bin/env python3
"""Runs every test and every case without a proof, side by side: each crate's #[test] functions by `rt try --test`, and each program that
has a file `stdout` by `rt try`, on its arguments and files.

    run_tests.py                     all of them
    run_tests.py wav_io sessions     those of these crates
    run_tests.py --jobs 2            at most two crates at once

They are compiled with checks at run time. Contracts and proofs aren't looked at: that is the gate's, `rt ci`. A program that runs cases
counts as many tests as it says that passed or failed, another one is one test.

The last line is `N passed, M failed`, and the exit status 0 where M is 0, else 1. It is 2 where crates.txt doesn't have a crate that is
named, 5 where standard output takes no more, and 70 where there is no toolchain."""
import difflib
import os
import re
import signal
import subprocess
import sys
import threading
import time
from concurrent.futures import ThreadPoolExecutor

ROOT = os.path.dirname(os.path.dirname(os.path.abspath(__file__)))
sys.path.insert(0, f"{ROOT}/tools")

import command
from crate_graph import below, files_in, read_lines, uses_of
from machine import Kit, NoKit, lanes_for, processors, say

FAILED, NO_KIT = 1, 70
# the most bytes that rt try holds at once, and the time that it gives a program or all tests of a crate
A_TRY, SECONDS = 1_500_000_000, 600
TEST_RESULT = re.compile(r"^test result: .*?(\d+) passed; (\d+) failed", re.M)
CASES_RESULT = re.compile(r"^[\w.]+: (\d+) passed, (\d+) failed$", re.M)
TOTAL = re.compile(r"^\w+: ")
ENDED_LINE = re.compile(r"^run=ended status=(\d+) ", re.M)


def texts_of(crate):
    """What a crate's functions and tests are."""
    for it in files_in(f"{crate}/src"):
        if it.endswith(".rt"):
            with open(it, encoding="utf-8") as file:
                yield file.read()


def lines_in(path):
    """The lines of a file, which may be missing."""
    if not os.path.exists(path):
        return []
    with open(path, encoding="utf-8") as file:
        return file.read().splitlines()


def cases_in(out):
    """How many cases passed and failed by the lines of a program that runs cases, of which the last may count them all; None of another one."""
    counts = [it for it in out.splitlines() if CASES_RESULT.match(it)]
    counts = counts[-1:] if counts and TOTAL.match(counts[-1]) else counts
    found = [tuple(map(int, CASES_RESULT.match(it).groups())) for it in counts]
    return tuple(map(sum, zip(*found))) if found else None


class Tests:
    """All that is run, and what came of it."""

    def __init__(self, root, names):
        self.root, self.lock, self.running = root, threading.Lock(), set()
        self.passed = self.failed = self.ended = 0
        self.is_stopped = False
        uses = uses_of(read_lines(root))
        # those over most crates take longest, and begin first
        names = sorted(names or uses, key=lambda it: -len(below(uses, it)))
        # a program's cases first, as they are the longest
        programs = [(it, False) for it in names if os.path.exists(f"{self.crate(it)}/stdout")]
        self.work = programs + [(it, True) for it in names if any("#[test]" in text for text in texts_of(self.crate(it)))]

    def crate(self, name):
        return f"{self.root}/crates/{name}"

    def call(self, name, words, given):
        """Runs rt try in a crate's folder, and returns its status and what it put on standard output and error."""
        how = {"stdin": given, "stdout": subprocess.PIPE, "stderr": subprocess.PIPE, "cwd": self.crate(name)}
        words = ["rt", "try", "--seconds", str(SECONDS), *words]
        with self.lock:
            if self.is_stopped:
                return FAILED, "", "stopped"
            ran = subprocess.Popen(words, **how)
            self.running.add(ran)
        out, errors = [it.decode(errors="replace") for it in ran.communicate()]
        with self.lock:
            self.running.discard(ran)
        return ran.returncode, out, errors

    def run(self, name, is_tests):
        """Runs the tests of a crate, or the program."""
        began = time.monotonic()
        passed, failed, said = self.tests(name) if is_tests else self.program(name)
        took = f"{time.monotonic() - began:.0f} s"
        with self.lock:
            self.passed, self.failed, self.ended = self.passed + passed, self.failed + failed, self.ended + 1
            print(f"[{self.ended}/{len(self.work)}] {name}: {passed} passed, {failed} failed, in {took}", flush=True)
            if failed:
                print(said, flush=True)

    def tests(self, name):
        """The tests of a crate: how many passed, how many failed, and what was said."""
        _, out, errors = self.call(name, ["--test"], subprocess.DEVNULL)
        found = TEST_RESULT.search(out + errors)
        if not found:
            return 0, 1, out + errors
        return int(found.group(1)), int(found.group(2)), out + errors

    def program(self, name):
        """A program on copies of the files beside its source: likewise."""
        crate = self.crate(name)
        data = [f"{os.path.relpath(it, f'{crate}/data')}={it}" for it in files_in(f"{crate}/data")]
        words = [word for it in data for word in ("--data", it)]
        with open(self.stdin(crate), "rb") as given:
            _, out, errors = self.call(name, [*words, "--", *lines_in(f"{crate}/args")], given)
        with open(f"{crate}/stdout", encoding="utf-8", errors="replace") as file:
            wanted = file.read()
        ended = ENDED_LINE.search(errors)
        is_right = out == wanted and ended is not None and ended.group(1) == "".join(lines_in(f"{crate}/status") or ["0"])
        passed, failed = cases_in(out) or (int(is_right), 0)
        differs = difflib.unified_diff(wanted.splitlines(True), out.splitlines(True), f"crates/{name}/stdout", "what was put")
        # (a file of cases that must fail has failed ones)
        return passed, 0 if is_right else max(failed, 1), f"{errors}{''.join(differs)}"

    @staticmethod
    def stdin(crate):
        return f"{crate}/stdin" if os.path.exists(f"{crate}/stdin") else os.devnull

    def stop(self):
        """Ends what runs."""
        with self.lock:
            self.is_stopped = True
            for it in self.running:
                it.terminate()


def run_all(tests, lanes):
    """Runs all tests, so many crates at once."""
    with ThreadPoolExecutor(lanes) as pool:
        waited = [pool.submit(tests.run, *it) for it in tests.work]
        try:
            for it in waited:
                it.result()
        finally:
            tests.stop()


def main():
    reader = command.Words(__doc__)
    reader.add_argument("crates", nargs="*", help="the crates whose tests are run; none: all")
    reader.add_argument("--jobs", type=command.positive_number, help="the most crates at once")
    given = reader.parse_args()
    for it in given.crates:
        command.check_known(it, list(read_lines(ROOT)), "crate of crates.txt")
    for it in (signal.SIGTERM, signal.SIGHUP):
        signal.signal(it, lambda number, _: sys.exit(128 + number))
    try:
        Kit().warn_of_another(f"{ROOT}/README.md")
    except NoKit as error:
        say(error)
        return NO_KIT
    tests = Tests(ROOT, given.crates)
    run_all(tests, max(1, min(given.jobs, processors())) if given.jobs else lanes_for(A_TRY))
    print(f"{tests.passed} passed, {tests.failed} failed")
    return FAILED if tests.failed else 0


if __name__ == "__main__":
    command.run(main)
