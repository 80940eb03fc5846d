#!/usr/bin/env python3
"""Times the reading and the writing of a WAV file of 64 MiB, and sox's own conversion of the same file.

usage: bench/wav_files.py        from the top of the repository; wants sox, and proves and builds crates/bench if needed

Times are of whole commands, the best of ten runs: processor time, and in parentheses the time on the clock. The files lie in a
temporary folder, so mostly in memory.
"""
import os
import struct
import subprocess
import sys
import tempfile
import time
from pathlib import Path

TOP = Path(__file__).resolve().parent.parent
CRATE = TOP / "crates/bench"
PROGRAM = CRATE / "out/bench"
SIZE, RUNS = 67108864, 10


def make(path):
    samples = (SIZE - 44) // 4 * 4
    head = b"RIFF" + struct.pack("<I", 36 + samples) + b"WAVEfmt " + struct.pack(
        "<IHHIIHH", 16, 1, 2, 48000, 192000, 4, 16) + b"data" + struct.pack("<I", samples)
    path.write_bytes(head + os.urandom(1 << 16) * (samples >> 16) + bytes(samples % (1 << 16)))


def timed(command, folder):
    best, clock, peak = None, None, 0
    for _ in range(RUNS):
        start = time.perf_counter()
        process = subprocess.Popen(command, cwd=folder, stdout=subprocess.DEVNULL)
        _, status, usage = os.wait4(process.pid, 0)
        passed = time.perf_counter() - start
        if status != 0:
            sys.exit(f"{command[0]} ended with {status}")
        spent = usage.ru_utime + usage.ru_stime
        best = spent if best is None else min(best, spent)
        clock = passed if clock is None else min(clock, passed)
        peak = max(peak, usage.ru_maxrss)
    return best, clock, peak


def main():
    subprocess.run(["rt", "run"], cwd=CRATE, stdout=subprocess.DEVNULL, stderr=subprocess.DEVNULL)
    if not PROGRAM.exists():
        sys.exit("crates/bench isn't built: see `rt run` there")
    with tempfile.TemporaryDirectory() as name:
        folder = Path(name)
        make(folder / "in.wav")
        read = timed([str(PROGRAM), "copy", "in.wav"], folder)
        copy = timed([str(PROGRAM), "copy", "in.wav", "out.wav"], folder)
        sox = timed(["sox", "in.wav", "sox.wav"], folder)
        if (folder / "in.wav").read_bytes() != (folder / "out.wav").read_bytes():
            sys.exit("the copy differs")
        print("| what | ms, processor (clock) | MB/s | peak memory, KiB |")
        print("|---|---|---|---|")
        for what, (spent, clock, peak) in (("read", read), ("read and write", copy), ("sox, read and write", sox)):
            print(f"| {what} | {spent * 1e3:.0f} ({clock * 1e3:.0f}) | {SIZE / spent / 1e6:.0f} | {peak} |")
        print(f"\nWriting alone, the difference: {SIZE / (copy[0] - read[0]) / 1e6:.0f} MB/s.")


if __name__ == "__main__":
    main()
