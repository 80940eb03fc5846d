#!/usr/bin/env python3
"""Times `dmixlab run` over whole sessions: many clients at once, a card that plays alone, and many short phases.

usage: bench/whole_run.py [PROGRAM]        from the top of the repository; builds the program if none is given

- 64 clients write files of 60 s in rounds of one write each and one play, all writes of a round in one phase, so on 64 threads: processor time for
  each input sample and time on the clock, beside `sox -m -v 1`, `ffmpeg` with `amix` and a plain C program (bench/plain_sum.c), which mix the same
  files, where they are there. The same with each write in a phase of its own, so without threads; its files have half the rate, since a
  script has at most 4,096 phases.
- A card that plays alone: processor time for each word that it takes, saturates and writes.
- 4,096 phases in which one client has a line, and 1,000 in which 64 clients have one: processor time for each phase, and time on the clock.
- `dmixlab make 1 64 1000`, which makes a script of 64 clients and 1,000 phases and runs it.

Times are processor time (user and system) where they don't say that they are on the clock, the least of some runs. The program runs with the C library's settings that the
script `dmixlab` gives it.
"""
import array
import os
import random
import shutil
import struct
import subprocess
import sys
import tempfile
import time
from pathlib import Path

TOP = Path(__file__).resolve().parent.parent
RATE, SECONDS, CLIENTS, ROUND, PLAYS = 32000, 60, 64, 15360, 270
SETTINGS = "glibc.pthread.stack_cache_size=1073741824:glibc.malloc.hugetlb=1"


def write_wav(path, rate, samples):
    data = samples.tobytes()
    head = b"RIFF" + struct.pack("<I", 36 + len(data)) + b"WAVEfmt " + struct.pack(
        "<IHHIIHH", 16, 1, 1, rate, rate * 2, 2, 16) + b"data" + struct.pack("<I", len(data))
    path.write_bytes(head + data)


def write_files(folder, rate):
    """A file of 60 s for each client; each begins 1,000 frames later in the same noise."""
    noise = array.array("h", [random.randint(-3000, 3000) for _ in range(rate * SECONDS)])
    for k in range(CLIENTS):
        write_wav(folder / f"c{k}.wav", rate, noise[k * 1000:] + noise[:k * 1000])


def clients(count):
    return [f"client c{k} c{k}.wav" for k in range(count)] + [f"open c{k}" for k in range(count)]


def mix_script(rate, at_once):
    """Rounds of one write of each client and one play, with all writes in one phase or each in one of its own."""
    lines = [f"card channels 1 rate {rate} period 1024 ring 16384"] + clients(CLIENTS)
    between = [] if at_once else ["end", "phase"]
    for _ in range(-(-rate * SECONDS // ROUND)):
        for k in range(CLIENTS):
            lines += (["phase"] if k == 0 else between) + [f"c{k} write {ROUND}"]
        lines += ["end", "phase", f"card play {ROUND}", "end"]
    return "\n".join(lines) + "\n"


def phases_script(count, phases):
    lines = [f"card channels 1 rate {RATE} period 64 ring 256"] + clients(count)
    for _ in range(phases):
        lines += ["phase"] + [f"c{k} sync" for k in range(count)] + ["end"]
    return "\n".join(lines) + "\n"


def play_script(rounds):
    lines = [f"card channels 1 rate {RATE} period 1024 ring 16384"]
    for _ in range(rounds):
        lines += ["phase", f"card play {ROUND}", "end"]
    return "\n".join(lines) + "\n"


class Cost:
    """What runs of a command took at least: seconds of processor time, seconds on the clock; and the greatest peak of memory in KiB."""

    def __init__(self):
        self.spent = self.clock = float("inf")
        self.peak = 0

    def add(self, spent, clock, peak):
        self.spent, self.clock, self.peak = min(self.spent, spent), min(self.clock, clock), max(self.peak, peak)


def least_cost(command, folder, runs):
    """What so many runs of a command took."""
    cost = Cost()
    given = {"GLIBC_TUNABLES": SETTINGS, **os.environ}
    for _ in range(runs):
        begun = time.monotonic()
        process = subprocess.Popen(command, cwd=folder, env=given, stdout=subprocess.DEVNULL, stderr=subprocess.DEVNULL)
        _, status, usage = os.wait4(process.pid, 0)
        if status != 0:
            sys.exit(f"{command[0]} ended with {status}")
        cost.add(usage.ru_utime + usage.ru_stime, time.monotonic() - begun, usage.ru_maxrss)
    return cost


def run_cost(program, folder, script, runs=3):
    """What the program takes for a script."""
    (folder / "s").write_text(script)
    return least_cost([program, "run", "s", "o"], folder, runs)


def phase_times(program, folder, count, phases):
    """Microseconds of a phase in which so many clients have a line, without the reading of their files: of processor time, and on the clock."""
    many, one = (run_cost(program, folder, phases_script(count, number), 5) for number in (phases, 1))
    return [(whole - begun) * 1e6 / (phases - 1) for whole, begun in ((many.spent, one.spent), (many.clock, one.clock))]


def make_times(program, folder):
    """Seconds of `make 1 64 1000`: of processor time, and on the clock."""
    cost = least_cost([program, "make", "1", "64", "1000"], folder, 3)
    return cost.spent, cost.clock


def others(folder):
    """The programs that mix the same files: a name and a command for each that is there."""
    names = [f"c{k}.wav" for k in range(CLIENTS)]
    if shutil.which("sox"):
        yield "sox -m -v 1", ["sox", "-m", *[word for name in names for word in ("-v", "1", name)], "-b", "16", "sox.wav"]
    if shutil.which("ffmpeg"):
        inputs = [word for name in names for word in ("-i", name)]
        mixed = ["-filter_complex", f"amix=inputs={CLIENTS}:normalize=0", "-c:a", "pcm_s16le"]
        yield "ffmpeg amix", ["ffmpeg", "-y", *inputs, *mixed, "ffmpeg.wav"]
    if shutil.which("cc"):
        subprocess.run(["cc", "-O2", "-o", str(folder / "plain_sum"), str(TOP / "bench/plain_sum.c")], check=True)
        yield "a plain C sum", [str(folder / "plain_sum"), "plain.wav", *names]


def mix(program, folder, rate, at_once):
    """Prints what an input sample takes where all clients write at once, or one after the other, and of the programs beside."""
    write_files(folder, rate)
    samples = CLIENTS * rate * SECONDS
    cost = run_cost(program, folder, mix_script(rate, at_once), 5)
    print(f"64 clients {'at once' if at_once else 'in turn'}: {cost.spent * 1e9 / samples:.1f} ns an input sample, {cost.clock:.2f} s on the clock, peak memory {cost.peak} KiB")
    for name, command in others(folder):
        cost = least_cost(command, folder, 3)
        print(f"  {name}: {cost.spent * 1e9 / samples:.1f} ns an input sample, {cost.clock:.2f} s on the clock")


def main():
    if len(sys.argv) > 1:
        program = str(Path(sys.argv[1]).resolve())
    else:
        subprocess.run([str(TOP / "dmixlab"), "--version"], check=True)
        program = str(TOP / "build/dmixlab")
    random.seed(1)
    with tempfile.TemporaryDirectory() as name:
        folder = Path(name)
        mix(program, folder, RATE // 2, at_once=False)
        mix(program, folder, RATE, at_once=True)
        played, begun = (run_cost(program, folder, play_script(rounds), 25).spent for rounds in (PLAYS, 1))
        print(f"a card alone: {(played - begun) * 1e9 / ((PLAYS - 1) * ROUND):.1f} ns a played word")
        for count, phases in ((1, 4096), (64, 1000)):
            spent, clock = phase_times(program, folder, count, phases)
            print(f"a phase of {count} client{'s' * (count > 1)}: {spent:.1f} us, {clock:.1f} us on the clock")
        spent, clock = make_times(program, folder)
        print(f"make 1 64 1000: {spent:.1f} s, {clock:.1f} s on the clock")


if __name__ == "__main__":
    main()
