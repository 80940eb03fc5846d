#!/usr/bin/env python3
"""Runs random sessions, mixed phases among them, and tests what each leaves by the program's own command `check`.

    check_runs.py ./dmixlab                     a thousand sessions
    check_runs.py ./dmixlab --runs 100 --seed 7      a hundred others, the same each time but for the order of the threads

After each run `check` must end with 0; and, with one byte of a file changed, with 7. The one exception is a client that was opened again
and is late after that: its row may name a place at which its segments of before have a sample, and then `check` names that row. The status
is 0 where all is so, and 1 where it isn't, with the first such session kept in a folder that is named. It is 2 where there is no such
program, or a number isn't one from 1 on.
"""
from __future__ import annotations

import os
import random
import re
import struct
import subprocess
import sys
import tempfile
from concurrent.futures import ThreadPoolExecutor

ROOT = os.path.dirname(os.path.dirname(os.path.abspath(__file__)))
sys.path.insert(0, f"{ROOT}/tools")

import command
import corpus

RATE = 48000
MOST_SECONDS = 60
CLIENT_CALLS = "write write write write write write prepare prepare prepare sync sync avail delay start rewind rewindable pause resume drain drop die".split()
READER_CALLS = "read read read read read start start prepare prepare avail sync drop pause die".split()
COUNTED = ("write", "rewind", "read", "die")


class Wrong(Exception):
    """What a session left isn't what it must be."""


class Session:
    """A random script with the files that it names."""

    def __init__(self, seed):
        self.chance = random.Random(seed)
        self.period = self.chance.choice((16, 32, 64, 100))
        self.ring = self.period * self.chance.choice((2, 3, 4, 8) if self.period > 31 else (4, 8))
        self.channels = self.chance.randint(1, 4)
        self.files, self.lines, self.open = {}, [], set()
        self.clients = [f"c{number}" for number in range(self.chance.randint(1, 5))]
        self.readers = [f"r{number}" for number in range(self.chance.randint(0, 3))]
        self.declare_card()
        for number, name in enumerate(self.clients):
            self.declare_client(number, name)
        for name in self.readers:
            self.lines.append(f"reader {name}{self.bindings()[0]}{self.thresholds()}")
        for name in self.clients + self.readers:
            self.turn(name, 0.9)
        for _ in range(self.chance.randint(4, 30)):
            self.add_item()
        self.files["s"] = "".join(f"{line}\n" for line in self.lines).encode()

    def declare_card(self):
        words = f"card channels {self.channels} rate {RATE} period {self.period} ring {self.ring}"
        if self.chance.random() < 0.7:
            self.files["captured"] = self.sound(self.chance.randint(1, self.channels), self.chance.randint(0, 2000))
            words += " capture captured"
        self.lines.append(words + self.chance.choice(("", f" lap {self.chance.randint(1, 1000)}", " share dshare", f" places {self.chance.randint(1, 3)}")))

    def declare_client(self, number, name):
        words, count = self.bindings()
        self.files[f"f{number}"] = self.sound(count, self.chance.choice((0, 64, 500, 3000)))
        lead = self.chance.choice(("", f" lead {self.chance.randrange(self.ring)}"))
        self.lines.append(f"client {name} f{number}{words}{self.thresholds()}{lead}")

    def sound(self, channels, frames):
        loud = self.chance.choice((1, 100, 32767))
        samples = [self.chance.randint(-loud, loud) for _ in range(frames * channels)]
        return corpus.wav(channels, RATE, struct.pack(f"<{len(samples)}h", *samples))

    def bindings(self):
        """The words that bind some channels of the card, and how many they are."""
        bound = self.chance.sample(range(self.channels), self.chance.randint(1, self.channels))
        return f" bindings {','.join(map(str, bound))}", len(bound)

    def thresholds(self):
        start = self.chance.choice(("", "", "", f" start {self.chance.choice((self.period, self.ring))}"))
        return start + self.chance.choice(("", " stop never", f" stop {self.chance.randint(self.ring, 2 * self.ring)}"))

    def turn(self, name, chance):
        """Opens an actor, or closes it where it is open, with a chance."""
        if self.chance.random() < chance:
            self.lines.append(f"close {name}" if name in self.open else f"open {name}")
            self.open ^= {name}

    def add_item(self):
        """A phase, and maybe an actor that is opened or closed before."""
        actors = self.clients + self.readers
        self.turn(self.chance.choice(actors), 0.1)
        self.add_phase(actors)

    def add_phase(self, actors):
        plays = self.chance.random() < 0.6
        others = not plays or self.chance.random() < 0.4
        self.lines.append("phase")
        if plays:
            self.lines += [f"card play {self.chance.choice((self.period // 2, self.period, self.period, self.ring))}" for _ in range(self.chance.randint(1, 2))]
        if others:
            for name in self.chance.sample(actors, self.chance.randint(1, len(actors))):
                self.lines += [f"{name} {self.call(name)}" for _ in range(self.chance.randint(1, 4))]
        self.lines.append("end")

    def frames(self):
        return self.chance.choice((self.period, 2 * self.period, self.ring, self.chance.randint(0, 2 * self.ring)))

    def call(self, name):
        word = self.chance.choice(CLIENT_CALLS if name in self.clients else READER_CALLS)
        if word == "die" and self.chance.random() < 0.8:
            word = "avail"
        return f"{word} {self.frames()}" if word in COUNTED else word


def is_excused(report, line):
    """Whether a line of a report is the late row of a client that was opened twice or more before."""
    lines = report.decode().splitlines()
    row = re.fullmatch(r"\d+ (\w+) .* = EPIPE late .*", lines[line - 1]) if 0 < line <= len(lines) else None
    opened = re.compile(rf"\d+ {row[1]} open = ok .*") if row else None
    return bool(row) and sum(bool(opened.fullmatch(it)) for it in lines[: line - 1]) > 1


def called(program, room, *words):
    """The status, the standard output and the standard error of a call."""
    try:
        ran = subprocess.run([program, *words], cwd=room, capture_output=True, timeout=MOST_SECONDS)
    except OSError as cause:
        raise command.Refused(f"can't run {program}: {cause.strerror}") from cause
    return ran.returncode, ran.stdout, ran.stderr


def check_right(program, room, report):
    """Tests what a run left; gives whether the row of a client that was opened again isn't passed."""
    status, _, said = called(program, room, "check", "s", "r", "o")
    if status == 0:
        return False
    line = re.fullmatch(rb"dmixlab: no: line (\d+)\n", said)
    if status == 7 and line and is_excused(report, int(line[1])):
        return True
    raise Wrong(f"check ended with {status}: {said.decode(errors='replace').strip()}")


def check_changed(program, room, chance):
    """Changes one byte of a file of the run, and tests that this is seen."""
    name = chance.choice(sorted(it for it in os.listdir(room) if it.startswith("o.")))
    with open(os.path.join(room, name), "r+b") as file:
        place = chance.randrange(os.fstat(file.fileno()).st_size)
        file.seek(place)
        byte = file.read(1)[0]
        file.seek(place)
        file.write(bytes([byte ^ (1 << chance.randrange(8))]))
    status, _, said = called(program, room, "check", "s", "r", "o")
    if status != 7:
        raise Wrong(f"byte {place} of {name} was changed, and check ended with {status}: {said.decode(errors='replace').strip()}")


def run(program, seed):
    """Runs the session of a seed and tests what it leaves; gives whether `check` excepts a late row in it."""
    session = Session(seed)
    with tempfile.TemporaryDirectory(prefix="runs-") as room:
        for name, data in session.files.items():
            command.store(os.path.join(room, name), data)
        try:
            status, report, said = called(program, room, "run", "s", "o")
            if status or said:
                raise Wrong(f"run ended with {status}: {said.decode(errors='replace').strip()}")
            command.store(os.path.join(room, "r"), report)
            excused = check_right(program, room, report)
            check_changed(program, room, session.chance)
            return excused
        except Wrong as wrong:
            kept = tempfile.mkdtemp(prefix="runs-")
            subprocess.run(["cp", "-r", f"{room}/.", kept], check=True)
            raise Wrong(f"seed {seed}: {wrong}; the session is kept in {kept}") from wrong


def main():
    words = command.Words(__doc__)
    words.add_argument("program", help="a program with dmixlab's command line")
    words.add_argument("--runs", type=command.positive_number, default=1000, help="how many sessions (default: 1000)")
    words.add_argument("--seed", type=command.positive_number, default=1, help="the first session's number (default: 1)")
    asked = words.parse_args()
    program = command.program_at(asked.program)
    try:
        with ThreadPoolExecutor(os.cpu_count() or 1) as pool:
            excused = sum(pool.map(lambda seed: run(program, seed), range(asked.seed, asked.seed + asked.runs)))
    except (Wrong, subprocess.TimeoutExpired) as error:
        print(error)
        return 1
    print(f"{asked.runs} runs pass their check, but for a late row of a client that was opened again in {excused} of them")
    return 0


if __name__ == "__main__":
    command.run(main)
