#!/usr/bin/env python3
"""Times the refinements of `dmixlab refine` on random narrowings.

usage: bench/refine_speed.py [TEXTS [SEED]]     from the top of the repository; builds the program if needed (300 texts, seed 1)

Each text has a slave and twelve narrowings, each of which is refined. Its time is the processor time of a run, less that of a
run with the slave alone, the least of five runs each: so it is the time of twelve refinements, and that of each is less. Beside
the random ones there are texts that set the buffer size to a prime, where the rounds creep the longest.
"""
import os
import random
import subprocess
import sys
import tempfile
from pathlib import Path

from refine_probe import PROGRAM, TOP, line, slave

NARROWINGS = 12
RUNS = 5
PRIMES = [16381, 12289, 8191, 4093, 2039, 1021]


def processor_time(path):
    """Microseconds of processor time of one run on a text."""
    silent = [(os.POSIX_SPAWN_OPEN, 1, os.devnull, os.O_WRONLY, 0)]
    child = os.posix_spawn(str(PROGRAM), [str(PROGRAM), "refine", str(path)], os.environ, file_actions=silent)
    _, status, used = os.wait4(child, 0)
    if status != 0:
        sys.exit(f"status {status} for {path.read_text()}")
    return (used.ru_utime + used.ru_stime) * 1e6


def least_time(folder, lines):
    path = folder / "timed"
    path.write_text("\n".join(lines) + "\n")
    return min(processor_time(path) for _ in range(RUNS))


def random_text(draw, folder):
    lines = [slave(draw)]
    for _ in range(NARROWINGS):
        lines.append(line(draw, [PROGRAM, "refine", "text"], lines, folder))
    return lines


def creeping_text(prime):
    return ["slave channels 8 rate 192000 period 1024 ring 16384", f"set buffer_size {prime}"]


def report(name, texts, folder):
    times = sorted(least_time(folder, lines) - least_time(folder, lines[:1]) for lines in texts)
    count = sum(len(lines) - 1 for lines in texts)
    print(f"| {name} | {count} | {max(sum(times), 0) / count:.1f} | {times[-1]:.0f} |")


def main():
    texts = int(sys.argv[1]) if len(sys.argv) > 1 else 300
    draw = random.Random(int(sys.argv[2]) if len(sys.argv) > 2 else 1)
    subprocess.run([str(TOP / "dmixlab"), "--version"], check=True)
    print("| texts | narrowings | us per narrowing | us of the slowest text |")
    print("|---|---|---|---|")
    with tempfile.TemporaryDirectory() as name:
        folder = Path(name)
        report("random", [random_text(draw, folder) for _ in range(texts)], folder)
        report("creeping", [creeping_text(prime) for prime in PRIMES], folder)


if __name__ == "__main__":
    main()
