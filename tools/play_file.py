#!/usr/bin/env python3
"""Prints a script that plays whole WAV files, each by a client of its own, since a script has no loop.

    play_file.py song.wav >song.script                       a file
    play_file.py song.wav voice.wav --ring 16384 >it.script  two files, which begin together
    play_file.py song.wav voice.wav --recover voice:3        the client voice leaves out its turn 3, and goes on after an xrun

The script goes in turns. In a turn each client that has frames left writes, in one phase, and then the card plays, in a phase of its own,
so the report is the same at each run. A client begins with so many frames that it is one period ahead of the card's next turn, and then
writes a turn's frames each time. With its last frames it drains, and drains again once the card has played all of them.

The files are 16-bit PCM of one rate, with 1 to 8 channels; the card has the rate, and the most channels. A client is named after its
file. The names of the files stand in the script as they are given, so it is to be run from the same folder.

A client that leaves out a turn writes nothing in it. In its next turn a write finds the xrun, the client prepares, and writes these frames
anew. So the rows of a run have no other errors than EAGAIN, of each first drain, and the EPIPE avail of these writes:

    tools/read_report.py song.report --strict --allow EAGAIN --allow "EPIPE avail"

The card plays at most 4,194,304 frames, so a file can have as many: one that leaves no room for the period with which a client begins has a
shorter lead. The status is 2 where a file can't be taken or the script would pass a limit of the language, and 5 where it can't be
written; one line on standard error says why.
"""
from __future__ import annotations

import os
import re
import shlex
import stat
import struct
import sys
from dataclasses import dataclass

sys.path.insert(0, os.path.dirname(os.path.abspath(__file__)))

import command
import read_report

# the limits of the language
MOST_FRAMES, MOST_PHASES, MOST_CLIENTS, MOST_BYTES = 4194304, 4096, 64, 1048576
LEAST_PERIOD, LEAST_RING, MOST_RING = 16, 64, 16384
LEAST_RATE, MOST_RATE, MOST_CHANNELS = 4000, 192000, 8
MOST_NAME, MOST_FILE_NAME = 32, 255
# the bytes of a file, and of all files
MOST_FILE, MOST_FILES = 67108864, 268435456
PCM, EXTENSIBLE = 1, 65534


@dataclass(frozen=True)
class Sound:
    """A WAV file: its size in bytes, the channels and frames that it has, and its rate in Hz."""

    path: str
    size: int
    channels: int
    rate: int
    frames: int


@dataclass(frozen=True)
class Geometry:
    """The frames of the card's period, of its ring and of a turn, and how far past the card's position a client begins."""

    period: int
    ring: int
    turn: int
    lead: int

    def first(self):
        """The frames with which a client begins, so that it is a period ahead of the next turn."""
        return self.turn + self.period - self.lead


def chunks_in(file, size):
    """The name and the size of each chunk of a WAV file, whose body is to be read where the file then is."""
    head = file.read(12)
    if head[:4] != b"RIFF" or head[8:] != b"WAVE":
        raise ValueError("it is no WAV file")
    at = 12
    while len(head := file.read(8)) == 8:
        name, length = struct.unpack("<4sI", head)
        at += 8
        yield name, min(length, size - at)
        at += length + length % 2
        file.seek(at)


def format_in(body):
    """The channels and the rate that the body of a format chunk has."""
    if len(body) < 16:
        raise ValueError("its format is cut short")
    tag, channels, rate, bits = (*struct.unpack_from("<HHI", body), *struct.unpack_from("<H", body, 14))
    if tag == EXTENSIBLE:
        tag = struct.unpack_from("<H", body, 24)[0] if len(body) >= 40 else 0
    if tag != PCM or bits != 16:
        raise ValueError("it isn't 16-bit PCM; `sox IN -b 16 -e signed-integer OUT` converts it")
    if not 1 <= channels <= MOST_CHANNELS:
        raise ValueError(f"it has {channels} channels, and 1 to {MOST_CHANNELS} can be played")
    if not LEAST_RATE <= rate <= MOST_RATE:
        raise ValueError(f"its rate is {rate} Hz, and a card has {LEAST_RATE} to {MOST_RATE} Hz")
    return channels, rate


def shape_in(file, size):
    """The channels, the rate and the frames of a WAV file."""
    found = None
    for name, length in chunks_in(file, size):
        if name == b"fmt ":
            if found:
                raise ValueError("it has two formats")
            found = format_in(file.read(length))
        elif name == b"data" and found:
            if length < 2 * found[0]:
                raise ValueError("it has no frames")
            return (*found, length // (2 * found[0]))
        elif name == b"data":
            break
    raise ValueError("it has no samples behind a format")


def cutting(path, seconds=60):
    """How a file is cut, with the command for a shell."""
    return f"`{shlex.join(['sox', path, 'OUT.wav', 'trim', '0', str(seconds)])}` takes its first {seconds} seconds"


def sound_in(path):
    """The WAV file at a path, as it can be named in a script."""
    if not re.fullmatch(f"[!\"$-~]{{1,{MOST_FILE_NAME}}}", path):
        form = f"1 to {MOST_FILE_NAME} visible ASCII characters without #"
        raise command.Refused(f"{path}: a script can't name it, which takes {form}; rename the file, or link to it")
    try:
        with open(path, "rb") as file:
            about = os.fstat(file.fileno())
            if not stat.S_ISREG(about.st_mode):
                raise ValueError("it is no plain file, and it is to be read twice")
            if about.st_size > MOST_FILE:
                raise ValueError(f"it has {about.st_size} bytes, and at most {MOST_FILE} can be read; {cutting(path)}")
            return Sound(path, about.st_size, *shape_in(file, about.st_size))
    except OSError as cause:
        raise command.Refused(f"can't read {path}: {cause.strerror}") from cause
    except ValueError as cause:
        raise command.Refused(f"{path}: {cause}") from cause


def check_sounds(sounds):
    """Refuses files that one script can't play."""
    if len(sounds) > MOST_CLIENTS:
        raise command.Refused(f"these are {len(sounds)} files, and a script has at most {MOST_CLIENTS} clients")
    other = next((it for it in sounds if it.rate != sounds[0].rate), None)
    if other:
        raise command.Refused(f"{other.path} has {other.rate} Hz and {sounds[0].path} {sounds[0].rate} Hz; a card has one rate")
    size = sum(it.size for it in sounds)
    if size > MOST_FILES:
        fewer = f"take fewer, or cut them: {cutting(sounds[0].path)}"
        raise command.Refused(f"the files have {size} bytes, and a run reads at most {MOST_FILES}; {fewer}")


def names_of(sounds):
    """A client's name for each file, after the file's own."""
    names = []
    for it in sounds:
        own = re.sub("[^a-z0-9]+", "_", os.path.splitext(os.path.basename(it.path))[0].lower()).strip("_")
        own = own if re.match("[a-z]", own) else f"c{own}"
        name, number = own[:MOST_NAME], 1
        while name in names or name in read_report.KEYWORDS:
            number += 1
            name = f"{own[: MOST_NAME - len(str(number))]}{number}"
        names.append(name)
    return names


class Client:
    """A client in the turns of a script: the frames of its file that are left, the card's frame after its last one, and whether it plays,
    has left out a turn, drains, or is done."""

    def __init__(self, name, frames, left_out):
        self.name, self.left, self.left_out = name, frames, left_out
        self.end, self.is_playing, self.is_stopped, self.is_done = 0, False, False, False

    def lines(self, turn, position, geometry):
        """Its lines in a turn that begins at a position of the card."""
        if not self.left:
            return self.drain(position)
        if turn in self.left_out:
            self.left_out.remove(turn)
            self.is_stopped = True
            return []
        count = min(self.left, geometry.turn if self.is_playing and not self.is_stopped else geometry.first())
        lines = [f"{self.name} write {count}"]
        if self.is_stopped:
            lines = [*lines, f"{self.name} prepare", *lines]
        if not self.is_playing or self.is_stopped:
            self.end = position + geometry.lead
        self.is_playing, self.is_stopped = True, False
        self.left -= count
        self.end += count
        return lines if self.left else [*lines, f"{self.name} drain"]

    def drain(self, position):
        """The second drain, once the card has played all of its frames."""
        if self.is_done or position < self.end:
            return []
        self.is_done = True
        return [f"{self.name} drain"]


class Body:
    """The phases of a script."""

    def __init__(self):
        self.lines, self.phases, self.turns, self.position = [], 0, 0, 0

    def add(self, lines):
        """A phase, where it has lines."""
        if lines:
            self.phases += 1
            self.lines += ["phase", *lines, "end"]

    def play(self, frames):
        self.turns += 1
        self.position += frames
        self.add([f"card play {frames}"])


def body_of(clients, geometry):
    """The phases in which clients play their files."""
    body = Body()
    while any(it.left for it in clients) and body.phases < MOST_PHASES and body.position <= MOST_FRAMES:
        body.add([line for it in clients for line in it.lines(body.turns + 1, body.position, geometry)])
        is_last = not any(it.left for it in clients)
        body.play(max(it.end for it in clients) - body.position if is_last else geometry.turn)
    body.add([line for it in clients for line in it.drain(body.position)])
    return body


def left_out_by(names, words):
    """The turns that each client leaves out, by its name."""
    turns = {name: set() for name in names}
    for word in words:
        name, _, number = word.rpartition(":")
        if name:
            command.check_known(name, names, "client")
        if not re.fullmatch("[0-9]{1,9}", number) or int(number) < 2:
            raise command.Refused(f"{word!r} names no turn that can be left out: a number from 2 on, or NAME:NUMBER")
        for it in [name] if name else names:
            turns[it].add(int(number))
    return turns


def planned(sounds, names, geometry, words):
    """The phases, with the turns left out that words name."""
    turns = left_out_by(names, words)
    clients = [Client(name, sound.frames, turns[name]) for name, sound in zip(names, sounds)]
    body = body_of(clients, geometry)
    if any(it.left for it in clients) or body.position > MOST_FRAMES or body.phases > MOST_PHASES:
        return body, False
    for word in words:
        name, _, number = word.rpartition(":")
        if all(int(number) in it.left_out for it in clients if name in ("", it.name)):
            raise command.Refused(f"turn {word} can't be left out: nobody writes in it")
    return body, True


def keys_of(asked):
    """The period and the ring, of which one that isn't given follows from the other, and the turn."""
    period, ring = asked.period, asked.ring
    if ring is None:
        ring = 8192 if period is None else min(8, max(MOST_RING // period, 2)) * period
    if period is None:
        period = max(LEAST_PERIOD, ring // 8)
    if not LEAST_RING <= ring <= MOST_RING:
        raise command.Refused(f"a ring has {LEAST_RING} to {MOST_RING} frames, and not {ring}")
    if period < LEAST_PERIOD or ring % period or ring < 2 * period:
        form = f"a ring has two or more whole periods of {LEAST_PERIOD} frames or more"
        raise command.Refused(f"{form}: {ring} frames and {period} don't fit")
    turn = asked.turn or ring - period
    if not period <= turn <= ring - period:
        raise command.Refused(f"a turn has a period to all but one of the ring, {period} to {ring - period} frames, and not {turn}")
    return period, ring, turn


def script_of(sounds, asked):
    """The lines of a script that plays files."""
    period, ring, turn = keys_of(asked)
    names, geometry = names_of(sounds), Geometry(period, ring, turn, period)
    body, fits = planned(sounds, names, geometry, asked.recover)
    over = body.position - MOST_FRAMES
    if not fits and 0 < over <= period and body.phases <= MOST_PHASES:
        geometry = Geometry(period, ring, turn, period - over)
        body, fits = planned(sounds, names, geometry, asked.recover)
    if not fits:
        refuse_length(sounds, body, geometry)
    lead = "" if geometry.lead == period else f" lead {geometry.lead}"
    seconds = body.position / sounds[0].rate
    return [
        f"# {command.counted(body.turns, 'turn')}, in which the card plays {command.counted(body.position, 'frame')}: {seconds:.3f} s",
        f"card channels {max(it.channels for it in sounds)} rate {sounds[0].rate} period {period} ring {ring}",
        *(f"client {name} {it.path}{lead}" for name, it in zip(names, sounds)),
        *(f"open {name}" for name in names),
        *body.lines,
    ]


def refuse_length(sounds, body, geometry):
    """Refuses files that are too long for the phases, or for the frames of the card."""
    longest = max(it.frames for it in sounds)
    file = next(it for it in sounds if it.frames == longest)
    cut = cutting(file.path, max(1, min(60, MOST_FRAMES // file.rate - 1)))
    if body.phases >= MOST_PHASES:
        why = f"{longest} frames in turns of {geometry.turn} need more than the {MOST_PHASES} phases of a script; take a larger --ring"
    else:
        why = f"{longest} frames, with what is silent, are more than the {MOST_FRAMES} frames that the card of a script plays; {cut}"
    raise command.Refused(why)


def arguments():
    words = command.Words(__doc__)
    add = words.add_argument
    add("files", nargs="+", metavar="FILE", help="a WAV file, which has a client of its own; one that is named twice has two")
    add("--period", type=command.positive_number, metavar="FRAMES", help="of the card (default: an eighth of the ring)")
    add("--ring", type=command.positive_number, metavar="FRAMES", help="of the card (default: 8192, or eight periods)")
    add("--turn", type=command.positive_number, metavar="FRAMES", help="that the card plays in a turn (default: the ring less a period)")
    recover = "a turn, from 2 on, that each client leaves out, or that client NAME does; may be repeated"
    add("--recover", action="append", default=[], metavar="[NAME:]TURN", help=recover)
    return words.parse_args()


def main():
    asked = arguments()
    sounds = [sound_in(path) for path in asked.files]
    check_sounds(sounds)
    text = "".join(f"{line}\n" for line in script_of(sounds, asked))
    if len(text) > MOST_BYTES:
        raise command.Refused(f"the script would have {len(text)} bytes, and at most {MOST_BYTES} are read; take a larger --ring or --turn")
    sys.stdout.write(text)
    return 0


if __name__ == "__main__":
    command.run(main)
