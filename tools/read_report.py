#!/usr/bin/env python3
"""Reads a report that `dmixlab run` printed, for test scripts.

As a program it prints each row that matches all that is asked for:

    read_report.py station.report                              every row
    read_report.py station.report --actor mind                 one actor's rows
    read_report.py station.report --answer "EPIPE late"        the late frames

and its status answers a question about them:

    read_report.py station.report --op open --all ok           is there an opening, and was none refused?
    read_report.py station.report --answer EPIPE --none        had nobody an xrun?
    read_report.py station.report --op write --at-least 10     are there ten writes or more?
    read_report.py station.report --strict --allow EAGAIN      was nothing refused but by EAGAIN?

With --quiet no row is printed, and the status alone answers.

An answer is named by its first words, each of them whole: `EPIPE` or `EPIPE late` or `EPIPE late 256 0`.

The status is 0 for yes and 1 for no. Where nothing of --all, --none, --at-least and --strict is given, the question is whether a row
matches. It is 3 where --strict found an error that no --allow names, in any row of the report; these rows alone are printed then. It is
2 where the report can't be read or isn't one, where an op, a state or an answer isn't one that a report can have, or an actor isn't in
this report, and 5 where standard output takes no more; one line on standard error says why.

As a module it gives the whole report:

    report = read_report.read("station.report")
    assert not any(row.answer.error for row in report.rows if row.op == "open")
"""
from __future__ import annotations

import dataclasses
import json
import os
import re
import sys
from dataclasses import dataclass

sys.path.insert(0, os.path.dirname(os.path.abspath(__file__)))

import command

# the status where --strict finds an error
STRICT = 3

STATES = ("OPEN", "SETUP", "PREPARED", "RUNNING", "XRUN", "DRAINING", "PAUSED", "DISCONNECTED")

# the refusals of one word
ERRORS = ("EBADFD", "EAGAIN", "ENODEV", "EINVAL", "EIO", "stopped")

# the causes that follow EPIPE
XRUNS = ("empty", "already", "avail", "late", "overtaken")

# the words that no client or reader has as its name
KEYWORDS = ("card", "client", "reader", "open", "close", "phase", "end")

MOST_FRAMES = 2**64 - 1
MOST_PHASES = 2**32 - 1

# what a line asks for, with the greatest number after it, or None where none follows
CARD_OPS = {"play": 4194304, "unplug": None}
ACTOR_OPS = {
    **dict.fromkeys(("write", "read", "rewind"), 4194304),
    **dict.fromkeys(("start", "sync", "avail", "delay", "drain", "drop", "prepare", "pause", "resume", "rewindable")),
    **dict.fromkeys(("open", "close")),
    "die": 1000000,
}


class NotAReport(ValueError):
    """The text isn't a report: the number of the first line that isn't allowed, from 1 on, and why."""

    def __init__(self, line, why):
        super().__init__(f"line {line}: {why}")
        self.line, self.why = line, why


class EndsEarly(NotAReport):
    """A line ends where a word must follow."""


@dataclass(frozen=True)
class Answer:
    """What a line was answered. Where it was done, `error` is None, and `frames` is the number, if one was answered."""

    text: str  # as the report has it
    frames: int | None = None
    error: str | None = None  # the first word of a refusal, as EPIPE
    why: str | None = None  # of EPIPE: empty, already, avail, late or overtaken
    avail: int | None = None  # of EPIPE avail: the frames that were free, or to be read
    frame: int | None = None  # of EPIPE late and overtaken: the frame
    channel: int | None = None  # and the card's channel
    until: int | None = None  # of EBUSY: the position at which a place will be free, where one is known
    seen: int | None = None  # of EBUSY: the card's position

    def __str__(self):
        return self.text


@dataclass(frozen=True)
class Row:
    """What one opening, closing or line of the script did."""

    phase: int  # from 1 on; of an opening or closing, the number of phases before it
    actor: str  # `card`, or the name of a client or reader
    op: str
    count: int | None  # the number after the op, where it has one
    answer: Answer
    state: str  # the actor's state afterwards
    seen: int | None  # the card's position, in frames, that the actor saw last

    def __str__(self):
        op = self.op if self.count is None else f"{self.op} {self.count}"
        seen = "-" if self.seen is None else self.seen
        return f"{self.phase} {self.actor} {op} = {self.answer} {self.state} {seen}"


@dataclass(frozen=True)
class Segment:
    """Frames of a client's file in the card's frames: `whole` of them, from `source` of the file on, are placed from `card`
    on, and `part` channels of the next one."""

    client: str
    source: int
    card: int
    whole: int
    part: int


@dataclass(frozen=True)
class Run:
    """`count` captured frames, from the card's frame `first` on, that a reader took one after the other."""

    reader: str
    first: int
    count: int


@dataclass(frozen=True)
class Report:
    """What a run did. The card played `frames` frames, from `first` on."""

    rows: tuple[Row, ...]
    segments: tuple[Segment, ...]
    runs: tuple[Run, ...]
    first: int
    frames: int


class Words:
    """The words of a line, which are joined by one space, one after the other."""

    def __init__(self, line, text):
        self.line, self.rest = line, text.split(" ")

    def refuse(self, why):
        raise NotAReport(self.line, why)

    def word(self, what):
        """The next word, which is to be this."""
        if not self.rest:
            raise EndsEarly(self.line, f"it ends before {what}")
        return self.rest.pop(0)

    def one_of(self, allowed, what):
        word = self.word(what)
        if word not in allowed:
            self.refuse(f"{word!r} isn't {what}")
        return word

    def number(self, what, most=MOST_FRAMES):
        """A number in its decimal form, without leading zeros, up to a limit."""
        word = self.word(what)
        # (a longer word has more digits than any limit)
        if not re.fullmatch("0|[1-9][0-9]{0,19}", word):
            self.refuse(f"{word!r} isn't {what}")
        if int(word) > most:
            self.refuse(f"{word!r} isn't {what}, which is at most {most}")
        return int(word)

    def number_or_dash(self, what):
        if self.rest[:1] == ["-"]:
            self.rest.pop(0)
            return None
        return self.number(what)

    def name(self, what):
        word = self.word(what)
        if not re.fullmatch("[a-z][a-z0-9_]{0,31}", word) or word in KEYWORDS:
            self.refuse(f"{word!r} isn't {what}")
        return word

    def end(self):
        if self.rest:
            self.refuse(f"{self.rest[0]!r} follows where the line ends")


def xrun_of(words):
    """What follows EPIPE, as fields of an answer."""
    why = words.one_of(XRUNS, "a cause of EPIPE")
    if why == "avail":
        return {"why": why, "avail": words.number("a number of frames")}
    if why in ("late", "overtaken"):
        return {"why": why, "frame": words.number("a frame's number"), "channel": words.number("a channel's number", 255)}
    return {"why": why}


def answer_of(words):
    """The answer at the front of what is left of a row."""
    left = list(words.rest)
    word = words.word("an answer")
    fields = {}
    if word == "EPIPE":
        fields = {"error": word, **xrun_of(words)}
    elif word == "EBUSY":
        fields = {"error": word, "until": words.number_or_dash("a position"), "seen": words.number("a position")}
    elif word in ERRORS:
        fields = {"error": word}
    elif word != "ok":
        words.rest.insert(0, word)
        fields = {"frames": words.number("an answer, which is ok, a refusal or a number of frames")}
    return Answer(" ".join(left[: len(left) - len(words.rest)]), **fields)


def row_of(words):
    """The row `PHASE NAME OP = ANSWER STATE SEEN`."""
    phase = words.number("the number of a phase, with which a row begins", MOST_PHASES)
    is_card = words.rest[:1] == ["card"]
    actor = words.word("a name") if is_card else words.name("a name")
    ops = CARD_OPS if is_card else ACTOR_OPS
    op = words.one_of(ops, f"what {'the card' if is_card else 'a client or reader'} is asked for")
    count = None if ops[op] is None else words.number(f"the number behind {op}", ops[op])
    words.one_of(("=",), "the = before an answer")
    answer = answer_of(words)
    state = words.one_of(STATES, "a state")
    return Row(phase, actor, op, count, answer, state, words.number_or_dash("a position or -"))


def segment_of(words):
    """The segment `NAME SOURCE CARD WHOLE PART`."""
    name = words.name("a client's name")
    source, card = words.number("a frame's number in the file"), words.number("a frame's number in the card")
    return Segment(name, source, card, words.number("a number of frames"), words.number("a number of channels", 255))


def run_of(words):
    """The run `NAME FIRST COUNT`."""
    name = words.name("a reader's name")
    return Run(name, words.number("a captured frame's number"), words.number("a number of frames"))


class Reading:
    """What is read of a report so far: rows, segments, runs, what was played and the end come in this order."""

    def __init__(self):
        self.rows, self.segments, self.runs, self.played, self.has_ended = [], [], [], None, False

    def add_row(self, words):
        if self.segments or self.runs:
            words.refuse("a row follows the segments or runs")
        row = row_of(words)
        if self.rows and row.phase < self.rows[-1].phase:
            words.refuse(f"phase {row.phase} follows phase {self.rows[-1].phase}")
        self.rows.append(row)

    def add_segment(self, words):
        if self.runs:
            words.refuse("a segment follows the runs")
        self.segments.append(segment_of(words))

    def add(self, words):
        """A line after the first."""
        if self.has_ended:
            words.refuse("a line follows the end")
        if self.played is not None:
            words.one_of(("end",), "the line end, which follows what was played")
            self.has_ended = True
        elif words.rest[0] == "segment":
            words.rest.pop(0)
            self.add_segment(words)
        elif words.rest[0] == "run":
            words.rest.pop(0)
            self.runs.append(run_of(words))
        elif words.rest[0] == "played":
            words.rest.pop(0)
            self.played = words.number("the number of the first frame that was played"), words.number("a number of frames")
        elif words.rest[0] == "end":
            words.refuse("the line played doesn't come before the end")
        else:
            self.add_row(words)
        words.end()

    def report(self, lines):
        """The report, where it is whole after so many lines."""
        if not self.has_ended:
            raise NotAReport(lines, "the text ends before the line end")
        return Report(tuple(self.rows), tuple(self.segments), tuple(self.runs), *self.played)


def parse(text):
    """The report that a text is, or NotAReport with the first line that isn't allowed."""
    lines = text.split("\n")
    last = lines.pop()
    if last:
        lines.append(last)
    reading = Reading()
    for number, line in enumerate(lines, 1):
        words = Words(number, line)
        if number > 1:
            reading.add(words)
        elif line == "dmixlab 1\r":
            words.refuse("it ends with a carriage return, which no report has; `tr -d '\\r' <IN >OUT` drops each one")
        elif line != "dmixlab 1":
            words.refuse("it isn't 'dmixlab 1', with which a report begins")
    if last:
        raise NotAReport(len(lines), "the text ends before the line's line feed")
    return reading.report(len(lines))


def read(path):
    """The report in a file, or in standard input where the path is `-`.

    It raises NotAReport, or OSError where the file can't be read.
    """
    if path == "-":
        return parse(sys.stdin.buffer.read().decode("latin-1"))
    with open(path, "rb") as file:
        # (each byte is a character, so that a line of other bytes is refused by its number)
        return parse(file.read().decode("latin-1"))


def text_for_command(path):
    """The text of the report in a file that a command was given. One that can't be read, or is none, is refused as a command refuses."""
    text = command.bytes_of(path).decode("latin-1")
    try:
        parse(text)
    except NotAReport as cause:
        raise command.Refused(f"{path}: {cause}") from cause
    return text


def read_for_command(path):
    """Likewise the report."""
    return parse(text_for_command(path))


def begins_with(answer, words):
    """Whether an answer's first words are these."""
    return answer.text.split()[: len(words)] == words


def answer_words(text):
    """The words of a text that is an answer, or its first words."""
    words = Words(0, " ".join(text.split()))
    first = list(words.rest)
    if not first[0].isdigit():
        command.check_known(first[0], ("ok", "EPIPE", "EBUSY", *ERRORS), "number and no answer's first word")
    if first[0] == "EPIPE" and len(first) > 1:
        command.check_known(first[1], XRUNS, "cause of EPIPE")
    try:
        answer_of(words)
        words.end()
    except EndsEarly:
        pass
    except NotAReport as cause:
        raise command.Refused(f"{text!r} begins no answer: {cause.why}") from cause
    return first


def error_words(text):
    """The words of an error, or its first words."""
    words = answer_words(text)
    if words[0] not in ("EPIPE", "EBUSY", *ERRORS):
        raise command.Refused(f"{text!r} is no error, and only errors are allowed by name")
    return words


def phase_number(text):
    """The number of a phase; an opening before the first phase has 0."""
    if not re.fullmatch("[0-9]{1,10}", text):
        raise command.Refused(f"{text!r} is no phase's number")
    return int(text)


def actors_of(report):
    """The card, and each client and reader of which a report has a line."""
    names = [row.actor for row in report.rows] + [it.client for it in report.segments] + [it.reader for it in report.runs]
    return list(dict.fromkeys(["card", *names]))


def check_words(asked, report):
    """Refuses an op, a state or an actor that isn't one, and words that say nothing together."""
    if asked.actor is not None:
        command.check_known(asked.actor, actors_of(report), "actor of this report")
    if asked.op is not None:
        command.check_known(asked.op, list(dict.fromkeys([*CARD_OPS, *ACTOR_OPS])), "op")
    if asked.state is not None:
        command.check_known(asked.state, STATES, "state")
    if asked.allow and not asked.strict:
        raise command.Refused("--allow says what --strict lets pass, and there is no --strict")
    if asked.quiet and asked.json:
        raise command.Refused("--quiet prints nothing, and --json the report: give one of them")
    if asked.none and (asked.every is not None or asked.at_least):
        raise command.Refused("--none asks for no row, and --all and --at-least for some: give one of them")


def matches(row, asked):
    """Whether a row has all that is asked for."""
    return (
        asked.actor in (None, row.actor)
        and asked.op in (None, row.op)
        and asked.state in (None, row.state)
        and asked.phase in (None, row.phase)
        and (asked.answer is None or begins_with(row.answer, asked.answer))
        and (asked.other is None or not begins_with(row.answer, asked.other))
    )


def answer_to(asked, report):
    """The status, and the rows that are printed."""
    unnamed = [row for row in report.rows if row.answer.error and not any(begins_with(row.answer, it) for it in asked.allow)]
    if asked.strict and unnamed:
        return STRICT, unnamed
    found = [row for row in report.rows if matches(row, asked)]
    if asked.none:
        return int(bool(found)), found
    # --strict alone asks for no row
    least = asked.at_least or int(not asked.strict or asked.every is not None)
    others = found if asked.every is None else [row for row in found if not begins_with(row.answer, asked.every)]
    return int(len(found) < least or bool(others) and asked.every is not None), others


def arguments():
    words = command.Words(__doc__)
    add = words.add_argument
    add("report", help="a file, or - for standard input")
    add("--actor", help="rows of this client or reader, or of the card")
    add("--op", help="rows of this operation, as open or write")
    add("--state", help="rows after which the actor is in this state, as XRUN")
    add("--phase", type=phase_number, metavar="N", help="rows of this phase; 0: what comes before the first one")
    add("--answer", type=answer_words, help="rows whose answer begins with these words")
    add("--not", type=answer_words, dest="other", metavar="ANSWER", help="rows whose answer doesn't begin with these words")
    add("--none", action="store_true", help="asks whether no row matches")
    add("--at-least", type=command.positive_number, metavar="N", help="asks whether so many rows match")
    every = "asks whether a row matches, and each one's answer begins with these words; prints those whose answer doesn't"
    add("--all", type=answer_words, dest="every", metavar="ANSWER", help=every)
    add("--strict", action="store_true", help="asks whether no row of the report has an error")
    add("--allow", type=error_words, action="append", default=[], metavar="ERROR", help="an error that --strict lets pass; may be repeated")
    add("--json", action="store_true", help="the report as JSON, with those of its rows that would be printed")
    add("--quiet", action="store_true", help="prints nothing; the status is the answer")
    return words.parse_args()


def main():
    asked = arguments()
    report = read_for_command(asked.report)
    check_words(asked, report)
    status, rows = answer_to(asked, report)
    if asked.quiet:
        return status
    if asked.json:
        print(json.dumps(dataclasses.asdict(dataclasses.replace(report, rows=tuple(rows))), indent=1))
    else:
        for row in rows:
            print(row)
    return status


if __name__ == "__main__":
    command.run(main)
