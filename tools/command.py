"""What the commands of tools/ and maintenance/ do alike: their statuses, how words and names are refused, and what is done where standard
output takes no more.

    0  what was asked for is so
    1  something isn't as it was asked for
    2  a word, a name or a file can't be taken
    5  something can't be written, as onto a full disk or into a closed pipe

With 2 and 5 one line on standard error says why. A command that has other statuses names them.
"""
from __future__ import annotations

import argparse
import difflib
import io
import os
import re
import sys

RIGHT, WRONG, REFUSED, NOT_WRITTEN = 0, 1, 2, 5


class Refused(Exception):
    """A word, a name or a file can't be taken; the text says which and why."""


class NotWritten(Exception):
    """Something can't be written; the text says what and why."""


class Words(argparse.ArgumentParser):
    """A reader of a command's words, which refuses others by one line. A word isn't shortened, so that each is known by its whole."""

    def __init__(self, doc):
        form = argparse.RawDescriptionHelpFormatter
        super().__init__(description=doc, formatter_class=form, allow_abbrev=False)

    def error(self, message):
        raise Refused(f"{message}; {self.prog} --help has its words")


def no_words(doc):
    """Reads the words of a command that has none."""
    Words(doc).parse_args()


def check_known(word, known, what):
    """Refuses a word that isn't one of those that are known, by the name of what it was to be."""
    if word not in known:
        # (a word in other letters, as running for RUNNING, is near too)
        lower = {it.lower(): it for it in known}
        near = difflib.get_close_matches(word.lower(), lower, 1)
        guess = f" (did you mean {lower[near[0]]}?)" if near else ""
        raise Refused(f"{word!r} is no {what}{guess}; there are: {', '.join(known)}")


def counted(number, word):
    """A number with what it counts, as `1 frame`."""
    return f"{number} {word}" if number == 1 else f"{number} {word}s"


def positive_number(text):
    """A number from 1 on."""
    if not re.fullmatch("[0-9]{1,19}", text) or int(text) == 0:
        raise Refused(f"{text!r} is no number from 1 on")
    return int(text)


def bytes_of(path):
    """The bytes of a file, or of standard input where the path is `-`."""
    try:
        if path == "-":
            # (a standard input that is closed is no stream)
            return sys.stdin.buffer.read() if sys.stdin else b""
        with open(path, "rb") as file:
            return file.read()
    except OSError as cause:
        raise Refused(f"can't read {path}: {cause.strerror}") from cause


def store(path, data):
    """Stores the bytes of a file."""
    try:
        with open(path, "wb") as file:
            file.write(data)
    except OSError as cause:
        raise NotWritten(f"can't write {path}: {cause.strerror}") from cause


def program_at(path):
    """The absolute path of a program that can be run."""
    if not os.path.isfile(path):
        raise Refused(f"there is no program {path}")
    if not os.access(path, os.X_OK):
        raise Refused(f"{path} can't be run as a program")
    return os.path.abspath(path)


def visible(text):
    """A text as one line, in which what can't be printed stands as an escape."""
    return "".join(it if it.isprintable() else it.encode("unicode_escape").decode() for it in text)


def say(text):
    """Puts one line on standard error, whatever is in the text."""
    name = os.path.splitext(os.path.basename(sys.argv[0]))[0]
    print(f"{name}: {visible(str(text))}", file=sys.stderr, flush=True)


class Output(io.RawIOBase):
    """Standard output or standard error. Of standard output the first write that fails is NotWritten. What can't be written is dropped."""

    def __init__(self, number):
        self.number, self.has_failed = number, False

    def writable(self):
        return True

    def fileno(self):
        return self.number

    def write(self, data):
        if self.has_failed:
            return len(data)
        try:
            return os.write(self.number, data)
        except OSError as cause:
            self.has_failed = True
            if self.number == 1:
                raise NotWritten(f"can't write standard output: {cause.strerror}") from cause
            return len(data)

    def stream(self, is_by_line):
        return io.TextIOWrapper(io.BufferedWriter(self), "utf-8", "backslashreplace", line_buffering=is_by_line)


def take_outputs():
    """Makes standard output one that says where it can't be written, and standard error one that is dropped there."""
    for number, stream in ((1, sys.stdout), (2, sys.stderr)):
        # an output that is closed stays one that can't be written, and no file is opened in its place
        if stream is None:
            os.dup2(os.open(os.devnull, os.O_RDONLY), number)
    sys.stdout, sys.stderr = Output(1).stream(os.isatty(1)), Output(2).stream(True)


def status_of(main):
    """Runs a command, and gives its status."""
    try:
        try:
            return main()
        except SystemExit as end:
            return end.code
        finally:
            sys.stdout.flush()
    except Refused as cause:
        say(cause)
        return REFUSED
    except NotWritten as cause:
        say(cause)
        return NOT_WRITTEN


def run(main):
    """Runs a command, and ends the process with its status."""
    take_outputs()
    sys.exit(status_of(main))
