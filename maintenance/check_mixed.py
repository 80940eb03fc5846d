#!/usr/bin/env python3
"""Runs mixed phases, in which clients and readers go on while the card plays, again and again, and checks each run.

    check_mixed.py ./dmixlab                 each plan a hundred times
    check_mixed.py ./dmixlab --runs 1000     so often

A run has one of many reports, as the threads go on in another order each time. From a row only what that order decides is taken: the
position seen, and whether the call was stopped, or found a sample late or overtaken, and where. The check tests that this can be, and
works out all else from the script (mixed_actors.py): each answer and state, each segment and run, each sample of each file. The status
is 0 where every run is right, and 1 where one isn't, with the first wrong run of a plan kept in a folder that is named. It is 2 where
there is no such program, or --runs isn't a number from 1 on.
"""
from __future__ import annotations

import os
import struct
import subprocess
import sys
import tempfile
from concurrent.futures import ThreadPoolExecutor
from dataclasses import dataclass

ROOT = os.path.dirname(os.path.dirname(os.path.abspath(__file__)))
sys.path.insert(0, f"{ROOT}/maintenance")
sys.path.insert(0, f"{ROOT}/tools")

import command
import corpus
from mixed_actors import CHANNELS, Call, Geometry, Outcome, Playback, Recording, Refusal

RATE = 48000
LEAST, GREATEST = -32768, 32767
MOST_SECONDS = 60


@dataclass(frozen=True)
class PlannedRow:
    """How a row begins, whose it is (None: the card's, which is planned whole), and its call."""

    begins: str
    actor: str | None = None
    call: Call | None = None


class Plan:
    """A script of clients c0, c1 .. and readers r0, r1 .., with the rows that its report has."""

    def __init__(self, geometry, clients, readers):
        self.geometry, self.phase, self.position = geometry, 0, 0
        self.clients = [f"c{number}" for number in range(clients)]
        self.readers = [f"r{number}" for number in range(readers)]
        size = f"period {geometry.period} ring {geometry.ring}"
        self.lines = [f"card channels {CHANNELS} rate {RATE} {size} capture captured"]
        self.lines += [f"client {name} f{name[1:]}" for name in self.clients]
        self.lines += [f"reader {name}" for name in self.readers]
        self.rows: list[PlannedRow] = []
        for name in self.clients + self.readers:
            self.lines.append(f"open {name}")
            self.rows.append(PlannedRow(f"0 {name} open = ", name, Call(0, 0, 0, "open", 0)))

    def add_phase(self, plays, writes=(), reads=()):
        """A phase: what the card plays, of which all but the last are whole periods, and the lines of each client and of each reader."""
        before = self.position
        self.phase += 1
        self.lines.append("phase")
        for frames in plays:
            self.position += frames
            self.lines.append(f"card play {frames}")
            self.rows.append(PlannedRow(f"{self.phase} card play {frames} = {frames} RUNNING {self.position}"))
        for names, lines in ((self.clients, writes), (self.readers, reads)):
            for name in names:
                for line in lines:
                    self.add_line(name, line, before)
        self.lines.append("end")

    def add_line(self, name, line, before):
        """A line of an actor in a phase that began at this position."""
        word, *count = line.split(" ")
        call = Call(self.phase, before, self.position, word, int(count[0]) if count else 0)
        self.lines.append(f"{name} {line}")
        self.rows.append(PlannedRow(f"{self.phase} {name} {line} = ", name, call))

    def script(self):
        return "".join(f"{line}\n" for line in self.lines)


def sound_of(client, frames):
    """The samples of a client's file, which differ from one client to the next."""
    return [(client * 7919 + number * 10477) % 24576 - 12288 for number in range(frames * CHANNELS)]


def sounds_of(plan):
    """The samples of each client's file, with as many frames as the ring, and 2,048 at least, and those that are captured."""
    frames = max(plan.geometry.ring, 2048)
    return [sound_of(client, frames) for client in range(len(plan.clients))], list(range(1, 4097))


def wav_of(channels, samples):
    return corpus.wav(channels, RATE, struct.pack(f"<{len(samples)}h", *samples))


def files_of(plan, clients, captured):
    """The files that a run of a plan finds."""
    files = {"s": plan.script().encode(), "captured": wav_of(1, captured)}
    return files | {f"f{number}": wav_of(CHANNELS, samples) for number, samples in enumerate(clients)}


def number_of(word):
    return int(word) if word.isdigit() and word.isascii() else None


def outcome_of(words):
    """What the words of a row after its `=` show of what the order of the threads decided."""
    place = None
    if words[0] == "EPIPE" and len(words) > 3 and words[1] in ("late", "overtaken"):
        frame, channel = number_of(words[2]), number_of(words[3])
        place = None if frame is None or channel is None else (frame, channel)
    return Outcome(words[0] == "stopped", place, number_of(words[-1]))


class Check:
    """A check of a report on a plan and of the files beside it."""

    def __init__(self, plan, clients, captured):
        self.plan, self.sounds, self.captured = plan, clients, captured
        pairs = zip(plan.clients, clients)
        self.clients = {name: Playback(plan.geometry, len(sound) // CHANNELS) for name, sound in pairs}
        self.readers = {name: Recording(plan.geometry) for name in plan.readers}
        self.between = 0  # rows that saw a position which the card passed in the midst of a phase

    def check_row(self, planned, line):
        """A row is what follows from the earlier ones of its actor, and from what the order of the threads decided."""
        if not line.startswith(planned.begins):
            raise Refusal(f"a row begins otherwise: {line}")
        rest = line[len(planned.begins) :]
        wanted = ""
        if planned.actor:
            actor = self.clients.get(planned.actor) or self.readers[planned.actor]
            answer = actor.answer(planned.call, outcome_of(rest.split(" ")))
            wanted = f"{answer} {actor.state} {'-' if actor.seen is None else actor.seen}"
            self.between += actor.seen is not None and planned.call.before < actor.seen < planned.call.after
        if rest != wanted:
            raise Refusal(f"a row is another one: {line} (wanted {planned.begins}{wanted})")

    def tail(self):
        """The lines that follow the rows."""
        lines = []
        for name, client in self.clients.items():
            client.list_segment()
            for it in client.segments:
                whole, part = divmod(it.samples, CHANNELS)
                lines.append(f"segment {name} {it.source} {it.card} {whole} {part}")
        for name, reader in self.readers.items():
            lines += [f"run {name} {first} {count}" for first, count in reader.runs]
        return [*lines, f"played 0 {self.plan.position}", "end"]

    def check_report(self, report):
        lines = report.splitlines()
        count = len(self.plan.rows) + 1
        if lines[:1] != ["dmixlab 1"] or len(lines) < count:
            raise Refusal("a row is missing")
        for planned, line in zip(self.plan.rows, lines[1:count]):
            self.check_row(planned, line)
        wanted = self.tail()
        if lines[count:] != wanted:
            raise Refusal(f"after the rows are {lines[count:]} (wanted {wanted})")

    def played(self):
        """The saturated sums of what the segments place."""
        sums = [0] * (self.plan.position * CHANNELS)
        for client, sound in zip(self.clients.values(), self.sounds):
            for it in client.segments:
                samples = sound[it.source * CHANNELS : it.source * CHANNELS + it.samples]
                for place, sample in enumerate(samples, it.card * CHANNELS):
                    if place < len(sums):
                        sums[place] += sample
        return [min(max(total, LEAST), GREATEST) for total in sums]

    def recorded(self, reader):
        """The captured frames of a reader's runs. A frame that the captured file doesn't have is silent, and so is the second channel."""
        frames = [frame for first, count in reader.runs for frame in range(first, first + count)]
        return [it for frame in frames for it in (self.captured[frame] if frame < len(self.captured) else 0, 0)]

    def check_files(self, files):
        wanted = {"o.wav": wav_of(CHANNELS, self.played())}
        for name, reader in self.readers.items():
            wanted[f"o.{name}.wav"] = wav_of(CHANNELS, self.recorded(reader))
        for name, data in wanted.items():
            if files.get(name) != data:
                raise Refusal(f"{name} isn't what the report says of it")


def check(plan, clients, captured, report, files):
    """Checks what a run of a plan left, and gives how many rows saw a position in the midst of a phase."""
    checked = Check(plan, clients, captured)
    checked.check_report(report)
    checked.check_files(files)
    return checked.between


def run(program, plan, clients, captured):
    """Runs a plan once, checks it, and gives how many rows saw a position in the midst of a phase."""
    with tempfile.TemporaryDirectory(prefix="mixed-") as room:
        for name, data in files_of(plan, clients, captured).items():
            with open(os.path.join(room, name), "wb") as file:
                file.write(data)
        try:
            ran = subprocess.run([program, "run", "s", "o"], cwd=room, capture_output=True, text=True, timeout=MOST_SECONDS)
        except OSError as cause:
            raise command.Refused(f"can't run {program}: {cause.strerror}") from cause
        names = [name for name in os.listdir(room) if name.startswith("o.")]
        files = {}
        for name in names:
            with open(os.path.join(room, name), "rb") as file:
                files[name] = file.read()
    try:
        if ran.returncode or ran.stderr:
            raise Refusal(f"status {ran.returncode}: {ran.stderr}")
        return check(plan, clients, captured, ran.stdout, files)
    except Refusal as refusal:
        kept = tempfile.mkdtemp(prefix="mixed-")
        for name, data in {**files_of(plan, clients, captured), **files, "report": ran.stdout.encode()}.items():
            with open(os.path.join(kept, name), "wb") as file:
                file.write(data)
        raise Refusal(f"{refusal}; the run is kept in {kept}") from refusal


SMALL, LARGE = Geometry(64, 256), Geometry(64, 4096)


def general(clients, readers):
    """They start without the card, run with it, are prepared again where they had an xrun, run with it again, are stopped, and at last
    the card plays alone."""
    plan = Plan(SMALL, clients, readers)
    plan.add_phase([], ["write 128"], ["start"])
    plan.add_phase([64, 128], ["write 100", "delay", "write 100"], ["read 64", "read 100"])
    plan.add_phase([], ["prepare"], ["read 500"])
    plan.add_phase([64] * 3, ["write 200", "rewind 30", "write 60", "sync"], ["avail", "read 30", "prepare", "read 300"])
    plan.add_phase([], ["die 100"], ["die 50"])
    plan.add_phase([64, 64], ["prepare", "write 100", "avail"], ["prepare", "read 100", "read 9"])
    plan.add_phase([256])
    return plan


WRITES = "avail,write 1000,delay,prepare,write 300,rewindable,rewind 1500,write 700,prepare,write 200,delay,rewind 30,rewindable,avail"
READS = "avail,read 200,prepare,read 1,read 200,avail,read 1200,prepare,start,read 1200"


def many_periods(geometry):
    """Two clients and two readers go on while the card plays 32 periods in one phase, which are eight laps of a ring of four periods:
    the clients write, ask and take back, the readers read, and each that has an xrun is prepared again."""
    plan = Plan(geometry, 2, 2)
    plan.add_phase([], ["write 2200"], ["start"])
    plan.add_phase([2048], WRITES.split(","), READS.split(","))
    plan.add_phase([2048])
    return plan


PLANS = {
    "two clients": general(2, 0),
    "eight clients and two readers": general(8, 2),
    "64 clients and 16 readers": general(64, 16),
    "32 periods in one phase": many_periods(SMALL),
    "32 periods in a ring of 64": many_periods(LARGE),
}


def check_plan(program, plan, times):
    """Runs a plan so often, and gives how many runs saw the card in the midst of a phase."""
    clients, captured = sounds_of(plan)
    # half as many runs at once as processors, since each has a thread for each of its actors
    with ThreadPoolExecutor(max(1, (os.cpu_count() or 1) // 2)) as pool:
        return sum(map(bool, pool.map(lambda _: run(program, plan, clients, captured), range(times))))


def main():
    words = command.Words(__doc__)
    words.add_argument("program", help="a program with dmixlab's command line")
    words.add_argument("--runs", type=command.positive_number, default=100, help="how often each plan is run (default: 100)")
    asked = words.parse_args()
    program, bad = command.program_at(asked.program), 0
    for name, plan in PLANS.items():
        try:
            between = check_plan(program, plan, asked.runs)
            print(f"{name}: {asked.runs} runs are right, {between} of them with a position in the midst of a phase")
        except (Refusal, subprocess.TimeoutExpired) as error:
            print(f"{name}: {error}")
            bad += 1
    return 1 if bad else 0


if __name__ == "__main__":
    command.run(main)
