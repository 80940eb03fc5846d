#!/usr/bin/env python3
"""Times placements and takes of the sum ring between threads, beside the same loops written in C.

usage: bench/sum_ring.py        from the top of the repository; wants cc, and proves and builds crates/bench if needed

The C program has the ring's length as a constant. Both programs fill and take a ring of 16,384 frames lap by lap, and give for
each measurement the time on the clock of the fastest of 400 laps. They are run in turn, ROUNDS times each, and the least time
counts.
"""
import subprocess
import sys
import tempfile
from pathlib import Path

TOP = Path(__file__).resolve().parent.parent
CRATE = TOP / "crates/bench"
PROGRAM = CRATE / "out/bench"
FRAMES, ROUNDS = 16384, 5
ROWS = (
    ("alone 1", "1 thread, 1 channel"),
    ("alone 2", "1 thread, 2 channels"),
    ("same 2", "2 threads at the same words"),
    ("staggered 2", "2 threads at staggered words"),
    ("same 4", "4 threads at the same words"),
    ("staggered 4", "4 threads at staggered words"),
)


def build(folder):
    """The C program, which is compiled anew; the crate is proved and built only where it has changed."""
    by_hand = folder / "by_hand"
    subprocess.run(["cc", "-O2", "-pthread", "-o", by_hand, TOP / "bench/sum_ring.c"], check=True)
    subprocess.run(["rt", "run"], cwd=CRATE, stdout=subprocess.DEVNULL, stderr=subprocess.DEVNULL)
    if not PROGRAM.exists():
        sys.exit("crates/bench isn't built: see `rt run` there")
    return [PROGRAM, by_hand]


def measure(program, best):
    """Runs a program, and keeps the lesser time of each of its lines."""
    process = subprocess.run([program, "sum", "time"], stdout=subprocess.PIPE, text=True, check=True)
    for line in process.stdout.splitlines():
        what, nanoseconds = line.rsplit(" ", 1)
        best[what] = min(best.get(what, float("inf")), int(nanoseconds))


def cells(step, key, ring, by_hand):
    """Nanoseconds for each word, of the crate and of the C program, and how the crate compares."""
    words = FRAMES * (2 if key == "alone 2" else 1)
    ours, theirs = ring[f"{key} {step}"] / words, by_hand[f"{key} {step}"] / words
    return f"{ours:.2f} | {theirs:.2f} | {ours / theirs:.2f}"


def main():
    """Builds and runs the programs, and prints the table."""
    times = [{}, {}]
    with tempfile.TemporaryDirectory() as name:
        programs = build(Path(name))
        for _ in range(ROUNDS):
            for program, best in zip(programs, times):
                measure(program, best)
    for step, what in (("place", "ns per `place`"), ("take", "ns per `take_word`")):
        print(f"| {what} | the ring | C | ratio |")
        print("|---|---|---|---|")
        for key, row in ROWS:
            print(f"| {row} | {cells(step, key, *times)} |")
        print()


if __name__ == "__main__":
    main()
