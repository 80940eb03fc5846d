"""Draws a session as SVG, which is readable on light and dark pages."""
from __future__ import annotations

from html import escape

from session import MARKS

WIDTH, HEIGHT, TOP, MARGIN = 800, 42, 58, 16
# about the width of a character at these sizes
NAME, SMALL = 7.4, 6.2

STYLE = """
text { font-family: sans-serif; font-size: 13px; fill: #1f2328 }
.small { font-size: 11px; fill: #59636e }
.page { fill: #ffffff }
.grid { stroke: #d1d9e0 }
.stop { stroke: #59636e; stroke-dasharray: 2 3 }
.played { fill: #3b78c4 } .card { fill: #8c959f } .taken { fill: #2b8a50 }
.waiting { fill: none; stroke: #3b78c4; stroke-dasharray: 3 2 }
.edge { stroke: #ffffff }
.opened { stroke: #8c959f; stroke-width: 2 }
.calm { fill: none; stroke: #59636e; stroke-width: 1.5 }
.calls { fill: none; stroke: #9a6700; stroke-width: 2 }
.bad { fill: none; stroke: #cf222e; stroke-width: 2.4 }
.full { fill: #cf222e }
@media (prefers-color-scheme: dark) {
  text { fill: #e6edf3 }
  .small { fill: #9198a1 }
  .page { fill: #0d1117 }
  .grid { stroke: #3d444d }
  .stop { stroke: #9198a1 }
  .played { fill: #5b9bea } .card { fill: #6e7681 } .taken { fill: #3fae6b }
  .waiting { stroke: #5b9bea }
  .edge { stroke: #0d1117 }
  .opened { stroke: #6e7681 }
  .calm { stroke: #9198a1 }
  .calls { stroke: #d29922 }
  .bad { stroke: #ff7b72 }
  .full { fill: #ff7b72 }
}
"""

# a mark's class and path, around its place
SHAPES = {
    "open": ("calm", "M0 7V-6L7 -2.5L0 1"),
    "close": ("calm", "M0 7V-6L-7 -2.5L0 1"),
    "refused": ("calls", "M-4 0a4 4 0 1 0 8 0a4 4 0 1 0 -8 0"),
    "stopped": ("calls", "M-4 -4H4V4H-4Z"),
    "unplugged": ("bad", "M0 -8V8M-4 -8H4"),
    "gone": ("bad", "M-5 0H5"),
    "opening": ("bad", "M-5.5 0a5.5 5.5 0 1 0 11 0a5.5 5.5 0 1 0 -11 0M-4 4L4 -4"),
    "xrun": ("bad", "M-5 -5L5 5M-5 5L5 -5"),
    "overtaken": ("bad", "M0 -6L6 0L0 6L-6 0Z"),
    "late": ("bad full", "M0 -6L6 0L0 6L-6 0Z"),
}

BARS = {
    "card": "played by the card",
    "played": "placed and played",
    "waiting": "placed, not played",
    "taken": "taken by a reader",
}


def step_of(frames, most):
    """A distance of 1, 2 or 5 times a power of ten, of which a width of so many frames has at most so many."""
    step = 1
    while True:
        for factor in (1, 2, 5):
            if frames <= step * factor * most:
                return step * factor
        step *= 10


class Drawing:
    """The parts of a picture, and where on it a frame is."""

    def __init__(self, session):
        self.session, self.parts = session, []
        # (the least width is that of the word phases)
        self.left = MARGIN + max(NAME * max(len(track.name) for track in session.tracks), 44) + 14
        self.width = self.left + WIDTH + 28
        self.bottom = TOP + HEIGHT * len(session.tracks)

    def x(self, frame):
        return round(self.left + (frame - self.session.first) * WIDTH / (self.session.end - self.session.first), 1)

    def add(self, tag, title="", text="", **attributes):
        names = {name: name.rstrip("_").replace("_", "-") for name in attributes}
        words = "".join(f' {names[name]}="{escape(str(value))}"' for name, value in attributes.items())
        inner = (f"<title>{escape(title)}</title>" if title else "") + escape(text)
        self.parts.append(f"<{tag}{words}>{inner}</{tag}>" if inner else f"<{tag}{words}/>")

    def line(self, x1, y1, x2, y2, kind, title=""):
        self.add("line", title, x1=x1, y1=y1, x2=x2, y2=y2, class_=kind)

    def mark(self, kind, x, y, title=""):
        style, path = SHAPES[kind]
        self.add("path", title, d=path, class_=style, transform=f"translate({x} {y})")


def draw_axis(drawing):
    """The frames below the tracks, with the card's own numbers."""
    session = drawing.session
    y, widest = drawing.bottom + 4, len(str(session.end)) * SMALL + 16
    step = step_of(session.end - session.first, max(1, int(WIDTH / widest)))
    for frame in range(-(-session.first // step) * step, session.end + 1, step):
        drawing.line(drawing.x(frame), TOP, drawing.x(frame), y, "grid")
        drawing.add("text", text=str(frame), x=drawing.x(frame), y=y + 13, text_anchor="middle", class_="small")
    drawing.add("text", text="frames", x=drawing.left - 20, y=y + 13, text_anchor="end", class_="small")


def draw_stops(drawing):
    """The card's position after each phase, over all tracks, with the phases' numbers where there is room."""
    drawing.add("text", text="phases", x=drawing.left - 20, y=TOP - 6, text_anchor="end", class_="small")
    free = 0
    for stop in drawing.session.stops:
        x, label = drawing.x(stop.at), stop.phases()
        drawing.line(x, TOP - 2, x, drawing.bottom, "stop", f"the card is at frame {stop.at} after phase {label}")
        half = len(label) * SMALL / 2
        if x - half >= free:
            drawing.add("text", text=label, x=x, y=TOP - 6, text_anchor="middle", class_="small")
            free = x + half + 4


def draw_bar(drawing, track, bar, y):
    kind = "card" if track.kind == "card" else bar.kind
    x, wide = drawing.x(bar.first), max(round(drawing.x(bar.end) - drawing.x(bar.first), 1), 1)
    edge = "" if kind == "waiting" else " edge"
    drawing.add("rect", bar.note, x=x, y=y, width=wide, height=12, class_=kind + edge)


def draw_marks(drawing, track, y):
    """The marks of a track; those of one place are side by side."""
    taken = set()
    for mark in track.marks:
        x = drawing.x(mark.frame)
        if mark.at != mark.frame:
            drawing.line(x, y, drawing.x(mark.at), y, "bad", mark.note)
        while any(abs(x - other) < 12.5 for other in taken):
            x = round(x + 13, 1)
        taken.add(x)
        drawing.mark(mark.kind, x, y, mark.note)


def draw_track(drawing, track, y):
    drawing.add("text", text=track.name, x=drawing.left - 10, y=y + 27, text_anchor="end")
    for begin, end in track.opens:
        drawing.line(drawing.x(begin), y + 30, drawing.x(end), y + 30, "opened", f"{track.name} is open")
    for bar in track.bars:
        draw_bar(drawing, track, bar, y + 24)
    draw_marks(drawing, track, y + 13)


def legend_of(session):
    """What the picture has of bars and marks, with their words."""
    bars = {"card" if t.kind == "card" else bar.kind for t in session.tracks for bar in t.bars}
    marks = {mark.kind for track in session.tracks for mark in track.marks}
    found = [("bar", kind, words) for kind, words in BARS.items() if kind in bars]
    found += [("line", "opened", "open")] * any(track.opens for track in session.tracks)
    found += [("line", "stop", "the card's position after these phases")]
    return found + [("mark", kind, words) for kind, words in MARKS.items() if kind in marks]


def draw_legend(drawing):
    """The legend, in as many lines as it needs; the height of the picture."""
    x, y = drawing.left, drawing.bottom + 44
    for form, kind, words in legend_of(drawing.session):
        wide = 34 + len(words) * SMALL
        if x > drawing.left and x + wide > drawing.width:
            x, y = drawing.left, y + 20
        if form == "bar":
            drawing.add("rect", x=x, y=y - 10, width=18, height=12, class_=kind)
        elif form == "line":
            drawing.line(x, y - 4, x + 18, y - 4, kind)
        else:
            drawing.mark(kind, x + 9, y - 4)
        drawing.add("text", text=words, x=x + 24, y=y, class_="small")
        x += wide
    return y + 18


def svg_of(session):
    """The text of the SVG picture of a session."""
    drawing = Drawing(session)
    draw_axis(drawing)
    draw_stops(drawing)
    for index, track in enumerate(session.tracks):
        draw_track(drawing, track, TOP + HEIGHT * index)
    height, width = draw_legend(drawing), round(drawing.width)
    frames = session.played - session.first
    title = f"A session of dmixlab: what each client and reader did while the card played {frames} frames"
    head = [
        f'<svg xmlns="http://www.w3.org/2000/svg" viewBox="0 0 {width} {height}" width="{width}" height="{height}" role="img">',
        f"<title>{title}</title>",
        f"<style>{STYLE}</style>",
        f'<rect class="page" width="{width}" height="{height}"/>',
        f'<text x="{drawing.left}" y="24">the card played {frames} frames, from {session.first} on</text>',
    ]
    return "\n".join(head + drawing.parts + ["</svg>"]) + "\n"
