"""What a run leaves in its files, by definitions that are written apart from the program: the samples that a report's segments place,
and the captured frames of its runs. What can't be worked out is NotDerived, with the reason:

    report = read_report.read("my.report")
    samples = expected.played_samples(open("my.script").read(), report, ".")
"""
from __future__ import annotations

import os
import struct

import script_forms

LEAST, GREATEST = -32768, 32767
PCM, EXTENSIBLE = 1, 65534
# the frames that a card plays in a script
MOST_FRAMES = 4194304


class NotDerived(ValueError):
    """What a run left can't be worked out from its script, its report and its files; the text says why."""


def chunks_in(data):
    """The name and the body of each chunk of a WAV file; a body ends where the file does."""
    at = 12
    while at + 8 <= len(data):
        name, size = struct.unpack_from("<4sI", data, at)
        yield name, data[at + 8 : at + 8 + size]
        at += 8 + size + size % 2


def shape_in(form):
    """The channels and the rate that the body of a format chunk has; no channels where it isn't 16-bit PCM."""
    if len(form) < 16:
        return 0, 0
    tag, channels, rate, bits = (*struct.unpack_from("<HHI", form), *struct.unpack_from("<H", form, 14))
    if tag == EXTENSIBLE:
        tag = struct.unpack_from("<H", form, 24)[0] if len(form) >= 40 else 0
    return (channels if (tag, bits) == (PCM, 16) else 0), rate


def sound_at(path):
    """The channels and the rate of a WAV file of 16-bit PCM, and the samples of its whole frames, interleaved."""
    try:
        with open(path, "rb") as file:
            data = file.read()
    except OSError as cause:
        raise NotDerived(f"can't read {path}: {cause.strerror}") from cause
    form = None
    for name, body in chunks_in(data) if data[:4] == b"RIFF" and data[8:12] == b"WAVE" else ():
        if name == b"fmt " and form is None:
            form = body
        elif name == b"data" and form is not None and shape_in(form)[0]:
            channels, rate = shape_in(form)
            count = len(body) // (2 * channels) * channels
            return channels, rate, struct.unpack_from(f"<{count}h", body)
    raise NotDerived(f"{path} is no WAV file of 16-bit PCM")


def check_script(script):
    """Refuses a text that is no script, by its first line that can't be one."""
    draft = script_forms.Draft()
    for line in script_forms.lines_of(script.encode()):
        try:
            if line.words:
                script_forms.check_script_line(line.words, draft)
                draft.add(line)
        except script_forms.Fault as fault:
            raise NotDerived(f"line {line.number} of the script is refused as {fault.why}: {fault.expected}") from fault
    if draft.card is None or draft.phase:
        raise NotDerived(f"the script's phase of line {draft.phase} has no end" if draft.phase else "the script has no line")


def lines_of(script):
    """The words of each line of a script, without comments."""
    return [words for line in script.split("\n") if (words := line.split("#")[0].split())]


def keys_of(words):
    """The keys of a line, each with its word."""
    return dict(zip(words[0::2], words[1::2]))


def bindings_of(keys):
    """The card channels of a line, or None for the channels of the same numbers."""
    return [int(k) for k in keys["bindings"].split(",")] if "bindings" in keys else None


def card_of(script):
    """The keys of the card."""
    return keys_of(lines_of(script)[0][1:])


def card_channels(script):
    """How many channels the card of a script has."""
    return int(card_of(script).get("channels", 2))


def card_rate(script):
    """The rate of the card of a script."""
    return int(card_of(script).get("rate", 48000))


def clients_of(script):
    """The file and the card channels of each client of a script, by its name."""
    return {words[1]: (words[2], bindings_of(keys_of(words[3:]))) for words in lines_of(script) if words[0] == "client"}


def readers_of(script):
    """The card channels of each reader of a script, by its name."""
    everything = list(range(card_channels(script)))
    return {words[1]: bindings_of(keys_of(words[2:])) or everything for words in lines_of(script) if words[0] == "reader"}


def plugged_in(script):
    """The clients of a script whose files are converted."""
    return [words[1] for words in lines_of(script) if words[0] == "client" and "plug" in keys_of(words[3:])]


def places_of(segment, bindings):
    """Each frame and channel of a segment's file with its place in the card: its frame, and the card's channel."""
    rising = sorted(bindings)
    for frame in range(segment.whole + (1 if segment.part else 0)):
        for place in rising if frame < segment.whole else rising[: segment.part]:
            yield segment.source + frame, bindings.index(place), segment.card + frame, place


def check_segment(segment, report, bindings, width, frames):
    """Refuses a segment that the client's file, of so many channels and frames, can't have on this card."""
    name, end = segment.client, segment.source + segment.whole + (1 if segment.part else 0)
    if len(bindings) != width or segment.part >= max(width, 1):
        raise NotDerived(f"{name} plays {len(bindings)} channels, its file has {width}, and a segment ends with a part of {segment.part}")
    if end > frames:
        raise NotDerived(f"a segment has the frames of {name} up to {end}, and its file has {frames}")
    if segment.card < report.first:
        raise NotDerived(f"a segment of {name} begins at the card's frame {segment.card}, and the first is {report.first}")


def sound_of(script, report, root, name):
    """The card channels in which a client plays its file, and the file's samples, where these are placed as they are."""
    if name not in clients_of(script):
        raise NotDerived(f"the report has a segment of {name}, and the script has no such client")
    if name in plugged_in(script):
        raise NotDerived(f"{name} has plug, and what its file is converted to isn't worked out")
    channels, (file, bindings) = card_channels(script), clients_of(script)[name]
    width, rate, samples = sound_at(os.path.join(root, file))
    if rate != card_rate(script):
        raise NotDerived(f"the file of {name} has {rate} Hz and the card {card_rate(script)} Hz, so no segment can have its frames")
    bindings = list(range(width)) if bindings is None else bindings
    if len({*bindings}) != len(bindings) or max(bindings, default=0) >= channels:
        raise NotDerived(f"{name} plays in {len(bindings)} channels, which aren't different ones of the card's {channels}")
    for segment in report.segments:
        if segment.client == name:
            check_segment(segment, report, bindings, width, len(samples) // width)
    return bindings, samples


def played_samples(script, report, root):
    """The samples that a report's segments place, each the saturated sum of what is placed there, interleaved: by a script's text, the
    report as read_report.read gives it, and the folder in which the run found its files."""
    check_script(script)
    if report.frames > MOST_FRAMES:
        raise NotDerived(f"the report says that {report.frames} frames were played, and a script plays at most {MOST_FRAMES}")
    channels = card_channels(script)
    sums = [0] * (channels * report.frames)
    sounds = {name: sound_of(script, report, root, name) for name in dict.fromkeys(it.client for it in report.segments)}
    for segment in report.segments:
        bindings, samples = sounds[segment.client]
        for frame, channel, at, place in places_of(segment, bindings):
            index = (at - report.first) * channels + place
            if index < len(sums):
                sums[index] += samples[frame * len(bindings) + channel]
    return tuple(min(max(total, LEAST), GREATEST) for total in sums)


def recorded_samples(script, report, root, name):
    """The captured frames of a reader's runs, interleaved; 0 where the captured file has no such frame or channel. The script, the report
    and the folder are those of played_samples."""
    check_script(script)
    if name not in readers_of(script):
        raise NotDerived(f"the script has no reader {name}")
    capture, bindings = card_of(script).get("capture"), readers_of(script)[name]
    width, _, samples = sound_at(os.path.join(root, capture)) if capture else (1, 0, ())
    recorded = []
    for run in report.runs:
        begin = run.first - report.first
        if run.reader == name and not 0 <= begin <= begin + run.count <= min(report.frames, MOST_FRAMES):
            raise NotDerived(f"a run of {name} has frames that the card didn't play")
        for frame in range(begin, begin + run.count if run.reader == name else begin):
            for channel in bindings:
                index = frame * width + channel
                recorded.append(samples[index] if channel < width and index < len(samples) else 0)
    return tuple(recorded)
