#!/usr/bin/env python3
"""Counts the instructions of a placed sample and of a played word, by valgrind's callgrind.

usage: bench/instructions.py [PROGRAM]     from the top of the repository; builds the program if none is given

- A placed sample: in mono one client that has its phases alone writes 15,360 frames 100 times; less the same script without
  the writes, so that the reading of the file, the opening and what the card plays aren't counted.
- A played word: in mono a card without clients plays 15,360 frames 270 times, by a period of 1,024 frames and by one of 64; less
  a script in which it plays one frame.

The counts don't vary with the load of the machine. The C library copies and fills long pieces by single instructions, which
callgrind counts once a byte: so the script has it do so in loops.
"""
import array
import os
import random
import re
import shutil
import subprocess
import sys
import tempfile
from pathlib import Path

from whole_run import RATE, ROUND, TOP, clients, write_wav

WRITES, PLAYS = 100, 270
LOOPS = "glibc.cpu.x86_rep_movsb_threshold=1073741824:glibc.cpu.x86_rep_stosb_threshold=1073741824"


def script_of(period, lines):
    """A script of a card in mono."""
    return "\n".join([f"card channels 1 rate {RATE} period {period} ring 16384", *lines]) + "\n"


def phase(line):
    return ["phase", line, "end"]


def count(program, folder, script):
    """How many instructions a run of a script takes."""
    (folder / "s").write_text(script)
    words = ["valgrind", "--tool=callgrind", f"--callgrind-out-file={folder / 'counts'}", program, "run", "s", "o"]
    given = {**os.environ, "GLIBC_TUNABLES": LOOPS}
    ran = subprocess.run(words, cwd=folder, env=given, stdout=subprocess.DEVNULL, stderr=subprocess.PIPE, text=True)
    collected = re.search(r"Collected : (\d+)", ran.stderr)
    if ran.returncode != 0 or collected is None:
        sys.exit(f"{' '.join(words)} ended with {ran.returncode}:\n{ran.stderr}")
    return int(collected.group(1))


def placed_sample(program, folder):
    """The instructions of a sample that a client places."""
    write, play = phase(f"c0 write {ROUND}"), phase(f"card play {ROUND}")
    written, silent = (script_of(1024, clients(1) + lines * WRITES) for lines in (write + play, play))
    return (count(program, folder, written) - count(program, folder, silent)) / (WRITES * ROUND)


def played_word(program, folder, period):
    """The instructions of a word that the card plays."""
    many, one = (script_of(period, lines) for lines in (phase(f"card play {ROUND}") * PLAYS, phase("card play 1")))
    return (count(program, folder, many) - count(program, folder, one)) / (PLAYS * ROUND - 1)


def main():
    if shutil.which("valgrind") is None:
        sys.exit("valgrind isn't installed")
    if len(sys.argv) > 1:
        program = str(Path(sys.argv[1]).resolve())
    else:
        subprocess.run([str(TOP / "dmixlab"), "--version"], check=True)
        program = str(TOP / "build/dmixlab")
    random.seed(1)
    with tempfile.TemporaryDirectory() as name:
        folder = Path(name)
        write_wav(folder / "c0.wav", RATE, array.array("h", [random.randint(-3000, 3000) for _ in range(WRITES * ROUND)]))
        print(f"a placed sample: {placed_sample(program, folder):.1f} instructions")
        for period in (1024, 64):
            print(f"a played word, by a period of {period}: {played_word(program, folder, period):.1f} instructions")


if __name__ == "__main__":
    main()
