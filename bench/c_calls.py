#!/usr/bin/env python3
"""Times the calls of the C library beside two loops in C, and counts their instructions by valgrind's callgrind.

usage: bench/c_calls.py        from the top of the repository; wants cc and valgrind, and the library that `make check-c` builds

- Times: the program bench/c_calls.c writes and takes blocks of 256 stereo frames, by the library, by hand over the same ring, and as
  alsa-lib's dmix does, in one run, and gives for each the nanoseconds of its best lap. It is run ROUNDS times; each figure is the median,
  and a ratio that of the ratios within a run.
- Instructions: calls of 16 and of 256 stereo frames give what a sample takes, and what a call takes beside its samples; what is counted of
  a write is less the same run without writes, and what is counted of a take is less a run of half as many.
"""
import re
import shutil
import statistics
import subprocess
import sys
import tempfile
from pathlib import Path

TOP = Path(__file__).resolve().parent.parent
ARCHIVE = TOP / "build/c/libdmixlab.a"
ROUNDS, CHANNELS, SHORT, LONG, CALLS = 7, 2, 16, 256, 2000


def build(folder):
    """The program, over the library."""
    if not ARCHIVE.exists():
        sys.exit(f"{ARCHIVE} isn't there: see `make check-c`")
    program = folder / "c_calls"
    subprocess.run(["cc", "-O2", "-pthread", f"-I{TOP}/include", "-o", program, TOP / "bench/c_calls.c", ARCHIVE], check=True)
    return program


def rows_of(text):
    """What was timed in a run, and its figures: the library's, and those by hand and as dmix, each with the ratio."""
    for line in text.splitlines():
        what, *figures = line.split("\t")
        ours, hand, dmix = map(float, figures)
        yield what, (ours, hand, ours / hand, dmix, ours / dmix)


def medians(runs):
    """Of each row the medians of its figures."""
    return {what: [statistics.median(figures) for figures in zip(*(run[what] for run in runs))] for what in runs[0]}


def times(program):
    runs = [subprocess.run([program, "time"], capture_output=True, text=True, check=True).stdout for _ in range(ROUNDS)]
    return medians([dict(rows_of(run)) for run in runs])


def count(program, folder, what, frames, calls):
    """How many instructions a run takes."""
    words = ["valgrind", "--tool=callgrind", f"--callgrind-out-file={folder / 'counts'}", program, "count", what, str(frames), str(calls)]
    ran = subprocess.run(words, capture_output=True, text=True)
    collected = re.search(r"Collected : (\d+)", ran.stderr)
    if ran.returncode != 0 or collected is None:
        sys.exit(f"{' '.join(map(str, words))} ended with {ran.returncode}:\n{ran.stderr}")
    return int(collected.group(1))


def parts_of(short, long):
    """What a sample takes, and a call beside its samples, by what calls of both lengths take."""
    sample = (long - short) / ((LONG - SHORT) * CHANNELS)
    return sample, short - sample * SHORT * CHANNELS


def written(program, folder, frames):
    return (count(program, folder, "write", frames, CALLS) - count(program, folder, "take", frames, CALLS)) / CALLS


def taken(program, folder, frames):
    return (count(program, folder, "take", frames, 2 * CALLS) - count(program, folder, "take", frames, CALLS)) / CALLS


def main():
    if shutil.which("valgrind") is None:
        sys.exit("valgrind isn't installed")
    with tempfile.TemporaryDirectory() as name:
        folder = Path(name)
        program = build(folder)
        print("| ns | dmixlab | by hand | ratio | as dmix | ratio |\n|---|---|---|---|---|---|")
        for what, figures in times(program).items():
            print(f"| {what} | {' | '.join(f'{it:.2f}' for it in figures)} |")
        print("\n| instructions | a sample | a call beside its samples |\n|---|---|---|")
        for what, of in (("`dmix_writei`", written), ("`dmix_card_play`", taken)):
            sample, call = parts_of(*(of(program, folder, frames) for frames in (SHORT, LONG)))
            print(f"| {what} | {sample:.1f} | {call:.0f} |")


if __name__ == "__main__":
    main()
