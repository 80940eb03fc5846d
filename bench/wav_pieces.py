#!/usr/bin/env python3
"""Times the reading and the writing of a stereo WAV file of 64 MiB in memory, in pieces of 65,536 bytes.

usage: bench/wav_pieces.py        from the top of the repository; proves and builds crates/bench if needed

A run reads or writes the file ten times. Each reading makes a new vector of samples, so that its time has the first use of the
memory in it (the system's part); a written piece takes the place of the one before. The best of ten runs counts.
"""
import os
import subprocess
import sys
from pathlib import Path

TOP = Path(__file__).resolve().parent.parent
CRATE = TOP / "crates/bench"
PROGRAM = CRATE / "out/bench"
BYTES, RUNS = 10 * 67108864, 10


def timed(word):
    """Processor time of the best run: all of it, and the program's own part."""
    best = None
    for _ in range(RUNS):
        process = subprocess.Popen([str(PROGRAM), "wav", word])
        _, status, usage = os.wait4(process.pid, 0)
        if status != 0:
            sys.exit(f"bench wav {word} ended with {status}")
        spent = (usage.ru_utime + usage.ru_stime, usage.ru_utime)
        best = spent if best is None else min(best, spent)
    return best


def main():
    subprocess.run(["rt", "run"], cwd=CRATE, stdout=subprocess.DEVNULL, stderr=subprocess.DEVNULL)
    if not PROGRAM.exists():
        sys.exit("crates/bench isn't built: see `rt run` there")
    print("| what | ms for 64 MiB, processor (own part) | MB/s | MB/s of the own part |")
    print("|---|---|---|---|")
    for word in ("read", "write"):
        whole, own = timed(word)
        print(f"| {word} | {whole * 100:.1f} ({own * 100:.1f}) | {BYTES / whole / 1e6:.0f} | {BYTES / own / 1e6:.0f} |")


if __name__ == "__main__":
    main()
