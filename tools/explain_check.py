"""What a line of a report is tested for by `check`, as far as can be told from the line."""
import itertools
import os
import stat

from show_text import marked_line, shown_name

REPORT_MOST = 1 << 26
# what is tested at a line, by its first word
TESTED = {
    "segment": "a segment has at least one sample, begins at the card's first frame or later, and takes frames that its client's file has; the client's "
    "bindings name as many channels as the file has, and the card has as many",
    "run": "a run has captured frames, from the first to the last that the card played, begins behind the reader's run before it, and is read to its end by "
    "the reader's rows",
    "played": "either it isn't what the script's card plays, or `OUT.wav` isn't, byte for byte, the canonical WAV file of the sums of what the segments place",
    "end": "the file of a reader isn't, byte for byte, the canonical WAV file of the captured frames of its runs",
}
LATE = "no segment of a client has a sample at the frame and in the channel that a late row names, and of a rewind's row one has"
READ = "the rows of a reader read the frames of its runs, one after the other, and from one run to the next there is a row that ended a stretch"
OTHER = "the line isn't one that a report of this script has here"


def report_line(name, number):
    """A line of a report, where it can be read a second time; else None."""
    try:
        if not stat.S_ISREG(os.stat(name).st_mode):
            return None
        with open(name, "rb") as file:
            return next(itertools.islice(file, number - 1, None), b"").rstrip(b"\n")
    except (OSError, ValueError):
        return None


def tested_at(line):
    """What is tested at a line."""
    words = line.decode("latin-1").split(" ")
    if words[0] in TESTED:
        return TESTED[words[0]]
    if words[0].isdigit() and "=" in words:
        answer = words[words.index("=") + 1 :]
        return LATE if answer[:2] == ["EPIPE", "late"] else READ if words[2:3] == ["read"] else OTHER
    return OTHER


def of_whole_report(name):
    """The sentences on line 0, the report as a whole."""
    try:
        size = os.stat(name).st_size
    except (OSError, ValueError):
        return []
    return ["the report is empty"] if size == 0 else [f"the report has more than {REPORT_MOST:,} bytes"] if size > REPORT_MOST else []


def explain_no(name, number):
    """The lines and sentences on the report's line at which a test fails."""
    if number == 0:
        return [], of_whole_report(name)
    line = report_line(name, number)
    if line is None:
        return [], []
    return [f"{shown_name(name)}, line {number}:", f"    {marked_line(line)[0]}"], [tested_at(line)]
