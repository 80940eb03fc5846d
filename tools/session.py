"""What a drawing of a report shows: a track an actor, with bars and marks along the card's frames."""
from __future__ import annotations

from dataclasses import dataclass, field

# the kinds of marks, in the order of a legend; where two meet in one place of a text, the later one is shown
MARKS = {
    "open": "opened",
    "close": "closed",
    "refused": "call refused",
    "stopped": "stopped",
    "unplugged": "unplugged",
    "gone": "the card is gone",
    "opening": "opening refused",
    "xrun": "xrun",
    "overtaken": "overtaken: stored over before it was read",
    "late": "late: played before it was placed",
}


@dataclass(frozen=True)
class Mark:
    """An event of an actor: at the position `at` of the card, and about the frame `frame`, which differs from it for what was
    late or overtaken alone."""

    kind: str
    at: int
    frame: int
    note: str


@dataclass(frozen=True)
class Bar:
    """Frames in a row from `first` up to `end`, which isn't one of them. `kind` is `played`, `waiting` (placed, but not
    played) or `taken` (by a reader)."""

    kind: str
    first: int
    end: int
    note: str


@dataclass(frozen=True)
class Stop:
    """A position of the card, and the phases after which it was there."""

    at: int
    first: int
    last: int

    def phases(self):
        return str(self.first) if self.first == self.last else f"{self.first}-{self.last}"


@dataclass
class Track:
    """An actor: `kind` is `card`, `client` or `reader`. It was open from the first to the second position of each pair of
    `opens`."""

    name: str
    kind: str
    bars: list[Bar] = field(default_factory=list)
    marks: list[Mark] = field(default_factory=list)
    opens: list[tuple[int, int]] = field(default_factory=list)


@dataclass(frozen=True)
class Session:
    """A report as it is drawn, from the frame `first` up to `end`; the card played up to `played`. `events` are rows with
    their marks, in the order of the report."""

    first: int
    played: int
    end: int
    tracks: tuple[Track, ...]
    stops: tuple[Stop, ...]
    events: tuple[tuple[object, Mark], ...]


def kind_of(row):
    """The kind of a row's mark, or None where it has none: a call that was done, or that is to be tried again (EAGAIN)."""
    answer = row.answer
    if answer.error is None:
        return {"open": "open", "close": "close", "unplug": "unplugged"}.get(row.op)
    if row.op == "open":
        return "opening"
    if answer.error == "EPIPE":
        return {"avail": "xrun", "late": "late", "overtaken": "overtaken"}.get(answer.why, "refused")
    return {"EAGAIN": None, "ENODEV": "gone", "stopped": "stopped"}.get(answer.error, "refused")


def placed_rows(report):
    """Each row with the card's position at it: for a line of a client or reader the one that it saw, or, where that is from an
    earlier phase, the one at which its phase began."""
    phase, began, now = 0, report.first, report.first
    for row in report.rows:
        if row.phase > phase:
            phase, began = row.phase, now
        if row.actor == "card":
            now = now if row.seen is None else max(now, row.seen)
            yield row, now
        elif row.op in ("open", "close"):
            yield row, now
        else:
            yield row, max(began, row.seen or 0)


def stops_of(report):
    """The card's position after each phase up to the last that has a row, equal ones as one stop."""
    after = {0: report.first}
    for row, at in placed_rows(report):
        if row.actor == "card":
            after[row.phase] = at
    last = report.rows[-1].phase if report.rows else 0
    edges = sorted(after) + [last + 1]
    stops = []
    for phase, following in zip(edges, edges[1:]):
        if stops and stops[-1].at == after[phase]:
            stops[-1] = Stop(stops[-1].at, stops[-1].first, following - 1)
        else:
            stops.append(Stop(after[phase], phase, following - 1))
    return tuple(stops)


def mark_of(row, at):
    """The mark of a row at this position of the card, or None."""
    kind = kind_of(row)
    if kind is None:
        return None
    frame = row.answer.frame if kind in ("late", "overtaken") else at
    return Mark(kind, at, frame, str(row))


def segment_bars(segment, played):
    """A segment's bars: of what the card played and of what it didn't."""
    end = segment.card + segment.whole + (1 if segment.part else 0)
    note = f"{segment.whole} frames of the file, from {segment.source} on, at the card's frames from {segment.card} on"
    if segment.part:
        note += f", and {segment.part} channels of the next"
    middle = min(max(played, segment.card), end)
    unplayed = f"{note}; not played from {middle} on"
    parts = [Bar("played", segment.card, middle, note), Bar("waiting", middle, end, unplayed)]
    return [bar for bar in parts if bar.first < bar.end]


def names_of(report):
    """The card and then each client and reader, in the order in which they come first, with their kinds."""
    readers = {run.reader for run in report.runs} | {row.actor for row in report.rows if row.op == "read"}
    names = [row.actor for row in report.rows] + [s.client for s in report.segments] + [r.reader for r in report.runs]
    names = [name for name in dict.fromkeys(names) if name != "card"]
    return {"card": "card", **{name: "reader" if name in readers else "client" for name in names}}


def opens_of(placed, end):
    """From where to where each actor was open, by its name; one that wasn't closed was so up to the end."""
    opens, since = {}, {}
    for row, at in placed:
        if row.op == "open" and row.answer.error is None:
            since[row.actor] = at
        elif row.op == "close" and row.answer.error is None and row.actor in since:
            opens.setdefault(row.actor, []).append((since.pop(row.actor), at))
    for name, at in since.items():
        opens.setdefault(name, []).append((at, end))
    return opens


def end_of(report, events):
    """The frame after the last one that is drawn."""
    ends = [report.first + report.frames, report.first + 1]
    ends += [s.card + s.whole + (1 if s.part else 0) for s in report.segments]
    ends += [run.first + run.count for run in report.runs]
    return max(ends + [max(mark.at, mark.frame) for _, mark in events])


def session_of(report):
    """What is drawn of a report."""
    placed = list(placed_rows(report))
    events = [(row, mark) for row, at in placed if (mark := mark_of(row, at))]
    played, end = report.first + report.frames, end_of(report, events)
    tracks = {name: Track(name, kind) for name, kind in names_of(report).items()}
    if report.frames:
        note = f"the card played {report.frames} frames from {report.first} on"
        tracks["card"].bars.append(Bar("played", report.first, played, note))
    for segment in report.segments:
        tracks[segment.client].bars += segment_bars(segment, played)
    for run in report.runs:
        note = f"{run.count} captured frames, from {run.first} on, are one behind the other in the reader's file"
        tracks[run.reader].bars += [Bar("taken", run.first, run.first + run.count, note)] if run.count else []
    for row, mark in events:
        tracks[row.actor].marks.append(mark)
    for name, opens in opens_of(placed, end).items():
        tracks[name].opens += opens
    firsts = [report.first] + [bar.first for track in tracks.values() for bar in track.bars]
    firsts += [mark.frame for _, mark in events]
    return Session(min(firsts), played, end, tuple(tracks.values()), stops_of(report), tuple(events))
