#!/usr/bin/env python3
"""Counts the rows of clients and readers that saw a position in the midst of a phase.

usage: bench/many_periods.py [PROGRAM [RUNS]]     from the top of the repository; builds the program if none is given (20 runs)

Two clients and two readers go on while the card plays 8,192 frames, 128 periods, in one phase. A row that shows a position after
that at which the phase began and before that at which it ended was answered while the card played. How many there are depends on
the machine: none where it runs one thread after the other.
"""
import array
import random
import subprocess
import sys
import tempfile
from pathlib import Path

from whole_run import RATE, TOP, write_wav

FRAMES, RING = 8192, 16384
WRITES = ["avail", "write 4000", "delay", "rewindable", "rewind 6000", "write 3000", "delay", "rewind 100", "avail"]
READS = ["avail", "read 900", "avail", "read 5000", "read 5000"]


def script():
    lines = [f"card channels 1 rate {RATE} period 64 ring {RING} capture captured"]
    lines += ["client c0 c0.wav", "client c1 c1.wav", "reader r0", "reader r1"] + [f"open {name}" for name in ("c0", "c1", "r0", "r1")]
    lines += ["phase", "c0 write 9000", "c1 write 9000", "r0 start", "r1 start", "end", "phase", f"card play {FRAMES}"]
    lines += [f"{name} {line}" for name, own in (("c0", WRITES), ("c1", WRITES), ("r0", READS), ("r1", READS)) for line in own]
    return "\n".join(lines + ["end"]) + "\n"


def positions(report):
    """The positions that the rows of clients and readers show in the phase."""
    rows = [line.split() for line in report.splitlines() if line.startswith("2 ")]
    return [int(words[-1]) for words in rows if words[1] != "card"]


def main():
    if len(sys.argv) > 1:
        program = str(Path(sys.argv[1]).resolve())
    else:
        subprocess.run([str(TOP / "dmixlab"), "--version"], check=True)
        program = str(TOP / "build/dmixlab")
    runs = int(sys.argv[2]) if len(sys.argv) > 2 else 20
    random.seed(1)
    counts = []
    with tempfile.TemporaryDirectory() as name:
        folder = Path(name)
        for file in ("c0.wav", "c1.wav", "captured"):
            write_wav(folder / file, RATE, array.array("h", [random.randint(-3000, 3000) for _ in range(RING)]))
        (folder / "s").write_text(script())
        for _ in range(runs):
            report = subprocess.run([program, "run", "s", "o"], cwd=folder, stdout=subprocess.PIPE, text=True, check=True).stdout
            seen = positions(report)
            counts.append(sum(0 < position < FRAMES for position in seen))
    print(f"rows that saw a position in the midst of the phase, of {len(seen)}: {' '.join(str(count) for count in counts)}")


if __name__ == "__main__":
    main()
