"""What follows for clients and readers of a mixed phase, in which they run while the card plays. A row of the report shows what the order
of the threads decided: which position was seen, and whether the call was stopped, or found a sample late or overtaken, and where. All
else follows from the script, and is worked out here, apart from the program."""
from __future__ import annotations

from dataclasses import dataclass

# the channels of the card, of each client and of each reader
CHANNELS = 2


class Refusal(ValueError):
    """Why a report or a file can't be that of a run."""


@dataclass(frozen=True)
class Geometry:
    """The frames of a period and of the ring. A client has a buffer of a ring, and so has a reader."""

    period: int
    ring: int


@dataclass(frozen=True)
class Call:
    """A call of an actor: its phase, the positions before and after that phase, its name, and the frames that it asks for."""

    phase: int
    before: int
    after: int
    name: str
    frames: int


@dataclass(frozen=True)
class Outcome:
    """What the order of the threads decides of a call: whether it was stopped, the frame and channel that the card had passed, if any,
    and the position that the actor has seen after it."""

    is_stop: bool = False
    place: tuple[int, int] | None = None
    seen: int | None = None


class Actor:
    """A client or reader: its state, the position that it saw last, the steps that it may still make after a `die`, and the phase in
    which it was stopped. No plan opens one again."""

    def __init__(self, geometry):
        self.geometry = geometry
        self.state, self.seen, self.steps, self.stop_phase = "OPEN", None, None, None

    def answer_by_state(self, call):
        """The answer of a line that is decided by the state alone and makes no step, or None where the call has to be made."""
        if self.stop_phase is not None:
            if self.stop_phase == call.phase:
                return "stopped"
            self.state, self.seen, self.steps, self.stop_phase = "OPEN", None, None, 0
        if self.state == "OPEN" and call.name == "open" and self.stop_phase is None:
            self.state = "PREPARED"
            return "ok"
        if self.state == "OPEN" or call.name == "open":
            return "EBADFD"
        if call.name == "die":
            self.steps = call.frames
            return "ok"
        if (self.state, call.name) in (("RUNNING", "prepare"), ("RUNNING", "start"), ("XRUN", "start")):
            return "EBADFD"
        if call.name == "prepare":
            self.state = "PREPARED"
            return None
        return "EPIPE already" if self.state == "XRUN" else None

    def stop(self, call):
        self.stop_phase = call.phase
        return "stopped"

    def make(self, count):
        """Makes so many steps, which can't be more than it may."""
        if self.steps is not None:
            self.steps -= count
            if self.steps < 0:
                raise Refusal("an actor wasn't stopped")

    def count_at_stop(self, pieces, steps):
        """How many of so many pieces of work, of some steps each, are done before it is stopped, which has to be before the last is."""
        done = None if self.steps is None else self.steps // steps
        if done is None or done >= pieces:
            raise Refusal("an actor can't have been stopped")
        return done

    def load(self, call, outcome):
        """The position that is loaded, in one step: the card published it in the phase, and it isn't before the one that was seen last.
        None where the step stops the actor."""
        if self.steps == 0:
            return None
        self.make(1)
        position = outcome.seen
        if position is None:
            raise Refusal("no position was seen")
        is_published = position % self.geometry.period == 0 or position in (call.before, call.after)
        if not is_published or not call.before <= position <= call.after or position < (self.seen or 0):
            raise Refusal("a position that can't have been seen")
        self.seen = position
        return position

    def answer(self, call, outcome):
        """The answer of a line."""
        word = self.answer_by_state(call)
        return self.made(call, outcome) if word is None else word


@dataclass(frozen=True)
class Segment:
    """The first frame of a client's file and of the card, and the samples that are in place, frame by frame."""

    source: int
    card: int
    samples: int


class Playback(Actor):
    """A client since it was prepared last: the frame of its file with which it begins, the frames that it wrote, the frame of the card
    at which it started, and the samples that are in place from there on. Of the whole time the place of its next sample, the farthest
    one that it had, and that before which it takes back nothing; samples of the card are counted from its first frame on."""

    def __init__(self, geometry, sound):
        super().__init__(geometry)
        self.sound = sound  # the frames of its file
        self.source = self.frames = self.start = self.samples = 0
        self.cursor = self.high = self.floor = 0
        self.segments: list[Segment] = []

    def made(self, call, outcome):
        """The answer of a call that isn't decided by the state alone."""
        if call.name == "prepare":
            return self.prepare()
        if self.state == "PREPARED":
            return self.made_prepared(call, outcome)
        if call.name in ("rewind", "rewindable"):
            return self.rewind(call, outcome)
        if call.name in ("write", "avail", "delay", "sync"):
            return self.sync(call, outcome)
        raise Refusal("no plan has this call")

    def made_prepared(self, call, outcome):
        if call.name == "write":
            return self.write_prepared(call, outcome)
        if call.name == "avail":
            return str(self.geometry.ring)
        if call.name in ("delay", "rewind", "rewindable"):
            return "0"
        raise Refusal("no plan has this call")

    def list_segment(self):
        """Lists the segment of the time since it was prepared last, where something is in place."""
        if self.samples:
            self.segments.append(Segment(self.source, self.start, self.samples))

    def prepare(self):
        """Begins anew, with the frame of the file after those that were written."""
        self.list_segment()
        self.source += self.frames
        self.frames = self.samples = 0
        return "ok"

    def offer(self, call):
        """The frames that a write offers: no more than the file has."""
        return min(call.frames, max(self.sound - self.source - self.frames, 0))

    def write_prepared(self, call, outcome):
        """Its first frame starts a prepared client, a period past the position that it sees and not before its next sample."""
        count = min(self.offer(call), self.geometry.ring)
        if count == 0:
            return "0"
        seen = self.load(call, outcome)
        if seen is None:
            return self.stop(call)
        self.start = max(seen + self.geometry.period, -(-self.cursor // CHANNELS))
        self.state = "RUNNING"
        return self.commit(call, outcome, seen, count) or str(count)

    def avail(self, seen):
        """The frames that are free at a position, which are more than the buffer's where the card has passed all."""
        return self.geometry.ring + max(seen - self.start, 0) - self.frames

    def xrun(self, seen):
        """The answer where the whole buffer is free."""
        if self.avail(seen) < self.geometry.ring:
            return None
        self.state = "XRUN"
        return f"EPIPE avail {self.avail(seen)}"

    def sync(self, call, outcome):
        """A call of a running client that commits: a position is loaded, and there is an xrun where the whole buffer is free."""
        seen = self.load(call, outcome)
        if seen is None:
            return self.stop(call)
        xrun, avail = self.xrun(seen), self.avail(seen)
        if xrun:
            return xrun
        offer, end = (self.offer(call) if call.name == "write" else 0), self.start + self.frames
        count = min(offer, avail)
        failed = self.commit(call, outcome, seen, count)
        if failed:
            return failed
        if call.name == "write":
            return "EAGAIN" if offer and not count else str(count)
        return {"sync": "ok", "avail": str(avail), "delay": str(max(end - seen, 0))}[call.name]

    def commit(self, call, outcome, seen, count):
        """Places what was written and these frames more, as far as the ring reaches from the position seen, in two steps a sample. It
        gives the answer where not all are in place."""
        frames = self.frames + count
        whole = min(frames, max(seen + self.geometry.ring - self.start, 0))
        due = max(whole * CHANNELS - self.samples, 0)
        is_passed = due > 0 and self.frame_of(self.samples) < seen
        if outcome.is_stop:
            pieces, steps = (1, 1) if is_passed else (due, 2)
            self.place(self.count_at_stop(pieces, steps))
            return self.stop(call)
        if outcome.place:
            frame, channel = outcome.place
            done = self.sample_at(frame, channel) - self.samples
            is_due = 0 <= done < due and frame < call.after and is_passed == (frame < seen)
            if not is_due or is_passed and done > 0:
                raise Refusal("a sample that can't have been late")
            self.place(done)
            return self.late(frame, channel)
        if is_passed:
            raise Refusal("what the card had passed was placed")
        self.place(due)
        self.frames = frames
        return None

    def frame_of(self, sample):
        """The frame of the card of a sample, counted from the start."""
        return self.start + sample // CHANNELS

    def sample_at(self, frame, channel):
        """The number of a sample, counted from the start."""
        if frame < self.start or channel >= CHANNELS:
            raise Refusal("no sample is there")
        return (frame - self.start) * CHANNELS + channel

    def place(self, count):
        """Places the next samples. Where it has taken back some, none before the farthest one is taken back again."""
        if count == 0:
            return
        self.make(2 * count)
        if self.cursor < self.high:
            self.floor = self.high
        self.samples += count
        self.cursor = self.start * CHANNELS + self.samples
        self.high = max(self.high, self.cursor)

    def late(self, frame, channel):
        """A sample was late, in one step or two: no plan has a client go on after that while its steps are counted."""
        self.make(1)
        self.state = "XRUN"
        return f"EPIPE late {frame} {channel}"

    def rewindable(self, seen):
        """The frames that can be taken back: those that aren't in place, and those that the card hasn't passed at the position seen."""
        least = max(seen, -(-self.floor // CHANNELS), self.start)
        return max(self.start + self.frames - min(least, self.frame_of(self.samples)), 0)

    def rewind(self, call, outcome):
        """A rewind, or a question how far one could go: a position is loaded, and there is an xrun where the whole buffer is free."""
        seen = self.load(call, outcome)
        if seen is None:
            return self.stop(call)
        xrun, rewindable = self.xrun(seen), self.rewindable(seen)
        if xrun or call.name == "rewindable":
            return xrun or str(rewindable)
        return self.take_back(call, outcome, min(rewindable, call.frames))

    def take_back(self, call, outcome, count):
        """Takes back the last frames, first those that aren't in place, and then samples from the last one on, in two steps each."""
        frames = self.frames - count
        rest = min(self.samples, frames * CHANNELS)
        if outcome.is_stop:
            done = self.count_at_stop(self.samples - rest, 2)
            self.unplace(self.samples - done)
            return self.stop(call)
        if outcome.place:
            frame, channel = outcome.place
            sample = self.sample_at(frame, channel)
            if not rest <= sample < self.samples or call.after <= frame:
                raise Refusal("a sample that can't have been late")
            self.unplace(sample + 1)
            self.frames = self.samples // CHANNELS
            return self.late(frame, channel)
        self.unplace(rest)
        self.frames = frames
        return str(count)

    def unplace(self, rest):
        """Takes back all but so many samples."""
        if rest < self.samples:
            self.make(2 * (self.samples - rest))
            self.samples = rest
            self.cursor = self.start * CHANNELS + rest


class Recording(Actor):
    """A reader: the frame that it reads next, and its runs, each the first captured frame and how many there are."""

    def __init__(self, geometry):
        super().__init__(geometry)
        self.next, self.runs = 0, []

    def made(self, call, outcome):
        """The answer of a call that isn't decided by the state alone."""
        if call.name == "prepare":
            return "ok"
        if self.state == "RUNNING" and call.name in ("read", "avail"):
            return self.sync(call, outcome)
        if call.name == "avail" or call.name == "read" and call.frames == 0:
            return "0"
        if call.name in ("start", "read"):
            return self.begin(call, outcome)
        raise Refusal("no plan has this call")

    def begin(self, call, outcome):
        """A start, also by a read, which finds nothing: the next frame is the one at the position that it sees."""
        seen = self.load(call, outcome)
        if seen is None:
            return self.stop(call)
        self.state, self.next = "RUNNING", seen
        return "EAGAIN" if call.name == "read" else "ok"

    def sync(self, call, outcome):
        """A call of a running reader: a position is loaded, and there is an xrun where as many frames wait as the ring has."""
        seen = self.load(call, outcome)
        if seen is None:
            return self.stop(call)
        avail = seen - self.next
        if avail >= self.geometry.ring:
            self.state = "XRUN"
            return f"EPIPE avail {avail}"
        if call.name == "avail":
            return str(avail)
        if call.frames and not avail:
            return "EAGAIN"
        return self.read(call, outcome, min(call.frames, avail))

    def read(self, call, outcome, count):
        """Reads so many frames, in one step a sample. One is overtaken only where the frame a ring after it was stored."""
        if outcome.is_stop:
            self.count_at_stop(count * CHANNELS, 1)
            return self.stop(call)
        if outcome.place:
            frame, channel = outcome.place
            is_asked = self.next <= frame < self.next + count and channel < CHANNELS
            if not is_asked or call.after <= frame + self.geometry.ring:
                raise Refusal("a frame that can't have been overtaken")
            self.make((frame - self.next) * CHANNELS + channel + 1)
            self.state = "XRUN"
            return f"EPIPE overtaken {frame} {channel}"
        self.make(count * CHANNELS)
        self.append(count)
        return str(count)

    def append(self, count):
        """Appends the next frames to the last run, where they are those after it, or to a new one."""
        first, self.next = self.next, self.next + count
        if count and self.runs and sum(self.runs[-1]) == first:
            self.runs[-1] = self.runs[-1][0], self.runs[-1][1] + count
        elif count:
            self.runs.append((first, count))
