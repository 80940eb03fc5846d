#!/usr/bin/env python3
"""check_heard.py: whether a WAV file is the sum of others, each from a frame of its own on, saturated once.

    check_heard.py OUT.wav FILE.wav[/DIVISOR] ..

Each file begins at a multiple of STEP frames, below LIMIT of them, on all channels: where it goes best with what the others leave, the
loudest one first. With /DIVISOR its samples are divided, towards 0. A file with one channel is heard on each channel of OUT.wav. The status
is 0 where each sample is the sum, 1 where one isn't, and 2 where a file can't be read."""
import os
import sys
import wave

ROOT = os.path.dirname(os.path.dirname(os.path.abspath(__file__)))
sys.path.insert(0, f"{ROOT}/tools")

import command

STEP, LIMIT, COMPARED = 256, 65536, 20000


def read_wav(name):
    """The samples of a file, a list for each channel."""
    try:
        with wave.open(name) as file:
            if file.getsampwidth() != 2:
                raise command.Refused(f"{name} isn't of 16 bits")
            data, channels = file.readframes(file.getnframes()), file.getnchannels()
    except (OSError, EOFError, wave.Error) as why:
        raise command.Refused(f"{name} can't be read: {why}") from None
    samples = [int.from_bytes(data[i : i + 2], "little", signed=True) for i in range(0, len(data) - 1, 2)]
    return [samples[channel::channels] for channel in range(channels)]


def divided(samples, divisor):
    """Samples divided towards 0, as C does."""
    return [sample // divisor if sample >= 0 else -(-sample // divisor) for sample in samples]


def read_part(word, channels):
    """A file as it is heard, on each of so many channels."""
    name, _, divisor = word.rpartition("/") if word.rpartition("/")[2].isdigit() else (word, "", "1")
    part = [divided(samples, int(divisor)) for samples in read_wav(name)]
    if len(part) not in (1, channels):
        raise command.Refused(f"{name} has {len(part)} channels, and the mix {channels}")
    return part * channels if len(part) == 1 else part


def go_together(rest, part, start):
    """How well the beginning of a part goes with what is left, from a frame on."""
    return sum(one * other for one, other in zip(rest[start : start + COMPARED], part[:COMPARED]))


def place(rest, part):
    """The frame from which a part is heard; it is taken from what is left."""
    starts = range(0, min(LIMIT, len(rest[0])), STEP)
    start = max(starts, key=lambda it: go_together(rest[0], part[0], it))
    for left, samples in zip(rest, part):
        for frame, sample in enumerate(samples[: len(left) - start], start):
            left[frame] -= sample
    return start


def compare(mix, parts):
    """Where each part begins, and how many samples of a mix are another than the sum."""
    rest, starts = [list(samples) for samples in mix], {}
    for at in sorted(range(len(parts)), key=lambda it: -sum(sample * sample for sample in parts[it][0])):
        starts[at] = place(rest, parts[at])
    wrong = 0
    for samples, left in zip(mix, rest):
        # what was taken from a sample is the sum
        wrong += sum(sample != max(-32768, min(32767, sample - more)) for sample, more in zip(samples, left))
    return [starts[at] for at in range(len(parts))], wrong


def main():
    words = command.Words(__doc__)
    words.add_argument("mix", metavar="OUT.wav", help="what was played")
    words.add_argument("parts", metavar="FILE.wav[/DIVISOR]", nargs="+", help="what it is the sum of")
    asked = words.parse_args()
    mix = read_wav(asked.mix)
    starts, wrong = compare(mix, [read_part(word, len(mix)) for word in asked.parts])
    begin = ", ".join(map(str, starts))
    print(f"{asked.mix}: {len(mix) * len(mix[0])} samples, {wrong} of them another than the sum; the files begin at {begin}")
    return 1 if wrong else 0


if __name__ == "__main__":
    command.run(main)
