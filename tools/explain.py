#!/usr/bin/env python3
"""explain.py PROGRAM WORD..: runs the program with these words, and says on standard error what its line there means and what to do.

`./dmixlab` calls it where standard error is a terminal. The program has this one's standard input and output, its folder and its signals,
and its status is this one's. It is 70 where the program can't be run."""
import contextlib
import os
import resource
import signal
import subprocess
import sys

from show_text import shown, width_of

CANT_RUN = 70
FORWARDED = (signal.SIGINT, signal.SIGTERM, signal.SIGHUP, signal.SIGQUIT, signal.SIGUSR1, signal.SIGUSR2)


def text_shown(said, words, width, had_output=True):
    """What is shown of the program's bytes on standard error. Bytes that are no line of its own are shown as they are."""
    if not said.startswith(b"dmixlab: ") or not said.endswith(b"\n"):
        return said
    text = shown(said[:-1]) + "\n"
    try:
        # most calls say nothing, and begin sooner without these
        from explanation import explanation_of

        found = explanation_of(said, words, had_output)
    except Exception:
        # an explanation that fails mustn't hide the line
        return encoded(text)
    return encoded(text + found.text(width)) if found else said


def encoded(text):
    """A text for standard error, whichever encoding that has."""
    return text.encode(sys.stderr.encoding or "utf-8", "backslashreplace")


def is_wanted(descriptor=2):
    """Whether the explanation is shown there."""
    return os.environ.get("DMIXLAB_PLAIN") != "1" and os.isatty(descriptor)


def is_open(descriptor):
    """Whether a descriptor is open."""
    try:
        os.fstat(descriptor)
    except OSError:
        return False
    return True


def put(raw):
    """Puts bytes on standard error; where that fails, nobody can be told."""
    with contextlib.suppress(OSError):
        sys.stderr.buffer.write(raw)
        sys.stderr.buffer.flush()


class Passing:
    """Passes the signals that would end this one on to the program, but those that are ignored. What comes before the program is there, waits."""

    def __init__(self):
        self.program, self.waiting = None, []
        for it in FORWARDED:
            if signal.getsignal(it) != signal.SIG_IGN:
                signal.signal(it, self.take)

    def take(self, number, _frame):
        if self.program:
            self.program.send_signal(number)
        else:
            self.waiting.append(number)

    def begin(self, program):
        self.program = program
        for it in self.waiting:
            program.send_signal(it)


def end_as(status):
    """Ends as the program did, by its status or by its signal."""
    if status >= 0:
        return status
    resource.setrlimit(resource.RLIMIT_CORE, (0, resource.getrlimit(resource.RLIMIT_CORE)[1]))
    if -status not in (signal.SIGKILL, signal.SIGSTOP):
        signal.signal(-status, signal.SIG_DFL)
    os.kill(os.getpid(), -status)
    return 128 - status


def run(program, words):
    """Runs the program, shows what it says, and returns its status."""
    had_output, passing = is_open(1), Passing()
    try:
        # the program gets every descriptor that this one was given, as /dev/fd/63 of `<(..)`
        ran = subprocess.Popen([program, *words], stderr=subprocess.PIPE, close_fds=False)
    except OSError as error:
        put(encoded(f"dmixlab: {program}: {error.strerror}\n"))
        return CANT_RUN
    passing.begin(ran)
    said = ran.stderr.read()
    status = ran.wait()
    if said:
        put(text_shown(said, words, width_of(2), had_output))
    return end_as(status)


def main(words):
    if not words:
        put(b"dmixlab: explain.py has the words PROGRAM WORD.., by which ./dmixlab calls it\n")
        return CANT_RUN
    return run(words[0], words[1:])


if __name__ == "__main__":
    sys.exit(main(sys.argv[1:]))
