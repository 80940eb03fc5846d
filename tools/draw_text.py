"""Draws a session in letters, for a terminal."""
from __future__ import annotations

from session import MARKS

# (a letter that is shown over another one is later here)
LETTERS = {
    "open": "[",
    "close": "]",
    "refused": "!",
    "stopped": "S",
    "unplugged": "U",
    "gone": "G",
    "opening": "N",
    "xrun": "X",
    "overtaken": "O",
    "late": "L",
}
BARS = {"played": ("=", "played"), "waiting": ("-", "placed, not played"), "taken": ("~", "taken by a reader")}


def column_of(session, frame, columns):
    """The column of a frame."""
    place = (frame - session.first) * columns // (session.end - session.first)
    return min(columns - 1, max(0, place))


def letters_of(session, track, columns):
    """The line of a track."""
    place = lambda frame: column_of(session, frame, columns)
    row = [" "] * columns
    for begin, end in track.opens:
        row[place(begin) : place(end) + 1] = "." * (place(end) + 1 - place(begin))
    for bar in track.bars:
        wide = place(bar.end - 1) + 1 - place(bar.first)
        row[place(bar.first) : place(bar.first) + wide] = BARS[bar.kind][0] * wide
    if track.kind == "card":
        for stop in session.stops:
            row[place(stop.at)] = "|"
    for mark in sorted(track.marks, key=lambda mark: list(MARKS).index(mark.kind)):
        row[place(mark.frame)] = LETTERS[mark.kind]
    return "".join(row).rstrip()


def legend_of(session):
    """What the drawing has of letters, with their words."""
    bars = {bar.kind for track in session.tracks for bar in track.bars}
    marks = {mark.kind for track in session.tracks for mark in track.marks}
    found = ["| the card's position after a phase", ". open"]
    found += [f"{letter} {words}" for kind, (letter, words) in BARS.items() if kind in bars]
    return found + [f"{LETTERS[kind]} {words}" for kind, words in MARKS.items() if kind in marks]


def text_of(session, columns):
    """The session in letters, with so many columns for the frames; then the card's positions, and each event as its row."""
    name = max(len(track.name) for track in session.tracks)
    columns = max(1, columns - name - 1)
    each = -(-(session.end - session.first) // columns)
    lines = [f"frames {session.first} to {session.end}; a column is about {each} of them"]
    for track in session.tracks:
        lines.append(f"{track.name:>{name}} {letters_of(session, track, columns)}")
    lines += ["", *legend_of(session), "", "the card's position after its phases:"]
    lines += [f"  {stop.phases():>9}  {stop.at}" for stop in session.stops]
    lines += ["", "events:", *(f"  {LETTERS[mark.kind]} {row}" for row, mark in session.events)]
    return "\n".join(lines) + "\n"
