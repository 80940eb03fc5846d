#!/usr/bin/env python3
"""try_run.py WHY WORD..: answers the words of run, check, refine or conf by the unproved program, compiled with checks at run time.

`./dmixlab` calls it where the program isn't built as its sources stand. `rt try` compiles the program and runs it in a folder of its own, so
the words get absolute names, and files that the script names are given to it. The report is put on standard output and the exit status is the
program's own; one line on standard error then says what this was. WHY is the reason, which that line repeats.

What can be told without the program is said in the program's own lines. The exit status is 70 where rt try gave no answer: it needs more
than 1 MiB for the report or more time than it gives, or rt itself failed; and of make, whose files rt try wouldn't keep."""
import contextlib
import os
import re
import signal
import stat
import subprocess
import sys
import tempfile
import time

import explain
from explanation import MADE, of_file_word, of_made

ROOT = os.path.dirname(os.path.dirname(os.path.abspath(__file__)))
NO_ANSWER, WORDS, NOT_READ = 70, 1, 4
# the words after each command; those that aren't numbers of make or the name of a device are names of files
COMMANDS = {"run": ["SCRIPT", "OUT"], "check": ["SCRIPT", "REPORT", "OUT"], "refine": ["TEXT"], "conf": ["FILE", "NAME"], "make": list(MADE)}
# a script's last byte is within these, and a report's; one of more is refused, and the rest of it needn't be read
SCRIPT_SIZE, REPORT_SIZE = 1 << 20, 1 << 26
# the time that rt try gives the program
SECONDS = 300
# names that rt try keeps for itself begin with one of these
KEPT_NAMES = ("program", "stdin", "stdout", "stderr")
STREAMS = ("/dev/stdin", "/dev/fd/0", "/proc/self/fd/0")
# rt's lines behind what the program wrote on standard error
RT_LINES = re.compile(rb"^(interpreter|checked|races|run)[:=].*\n", re.M)
NO_ANSWER_LINE = re.compile(rb"^checked: no-answer: (.*)$", re.M)
ENDED_LINE = re.compile(rb"^run=ended status=(\d+) ", re.M)


def say(text):
    print(f"dmixlab: {text}", file=sys.stderr, flush=True)


def tell(said, words):
    """Puts what the program wrote on standard error there; a terminal gets what it means too."""
    explain.put(explain.text_shown(said, words, explain.width_of(2)) if explain.is_wanted() else said)


def places_of_names(script):
    """Where the script's lines `client NAME FILE` and `card .. capture FILE` have a file's name: its first byte and the one behind its last."""
    for line in re.finditer(rb"[^\n]*", script):
        words = list(re.finditer(rb"[^ \t\r]+", line.group().split(b"#")[0]))
        texts = [it.group() for it in words]
        found = texts[:1] == [b"client"] and words[2:3]
        if texts[:1] == [b"card"] and b"capture" in texts:
            found = words[texts.index(b"capture") + 1 :][:1]
        for it in found or []:
            yield line.start() + it.start(), line.start() + it.end()


def can_be_given(name):
    """Whether rt try can give the program a file under this name, in the folder in which it runs."""
    return ".." not in name.split("/") and "=" not in name and not os.path.normpath(name).startswith(KEPT_NAMES)


class Try:
    """A call of the program in the user's folder, and what rt try is asked for it."""

    def __init__(self, folder, room):
        self.folder, self.room, self.data, self.renamed = folder, room, {}, {}

    def absolute(self, name):
        """The absolute name of a file of the user, which isn't changed beyond that; what is empty or absolute stays."""
        return name if not name or name.startswith("/") else f"{self.folder}/{name}"

    def text(self, name, size=SCRIPT_SIZE, copy="text"):
        """The absolute name of a text that is read by the program; of one that is read only once, as a pipe, a copy."""
        path = self.absolute(name)
        if stat.S_ISREG(os.stat(path).st_mode):
            with open(path, "rb"):
                return path
        with open(path, "rb") as file:
            return self.copy(file.read(size + 1), copy)

    def copy(self, content, name="text"):
        path = f"{self.room}/{name}"
        with open(path, "wb") as file:
            file.write(content)
        return path

    def script(self, name):
        """The absolute name of a script whose files are given to rt try; those that it can't be given have absolute names in a copy."""
        path = self.text(name)
        with open(path, "rb") as file:
            text = file.read(SCRIPT_SIZE + 1)
        parts, end = [], 0
        for first, behind in places_of_names(text):
            word = os.fsdecode(text[first:behind])
            given = self.absolute(word)
            if word == given or not os.path.exists(given):
                continue
            if os.path.isfile(given) and can_be_given(word):
                self.data[word] = given
            else:
                self.renamed[os.fsencode(given)] = os.fsencode(word)
                parts += [text[end:first], os.fsencode(given)]
                end = behind
        return self.copy(b"".join([*parts, text[end:]])) if parts else path

    def report(self, name):
        """The absolute name of a report; of one that can't be read, which the program says in its turn."""
        with contextlib.suppress(OSError):
            return self.text(name, REPORT_SIZE, "report")
        return self.absolute(name)

    def words(self, command, given):
        """The program's words with absolute names."""
        if command == "run":
            return [command, self.script(given[0]), self.absolute(given[1])]
        if command == "check":
            words = [command, self.script(given[0]), self.report(given[1]), self.absolute(given[2])]
            # the program names a report, or a file that begins with OUT, which it can't read
            self.renamed.update((os.fsencode(path), os.fsencode(word)) for path, word in zip(words[2:], given[1:]) if path != word)
            return words
        return [command, self.text(given[0]), *given[1:]]

    def said(self, errors):
        """What the program itself wrote on standard error, with the names that the user gave."""
        own = RT_LINES.sub(b"", errors)
        for path, word in self.renamed.items():
            own = own.replace(path, word)
        return own


def run_rt(given, words, reads_input):
    """Runs rt try, whose standard output is this one's, and returns what it wrote on standard error."""
    data = [word for name, path in given.data.items() for word in ("--data", f"{name}={path}")]
    call = ["rt", "try", "--seconds", str(SECONDS), *data, "--", *words]
    how = {"cwd": f"{ROOT}/crates/dmixlab", "stderr": subprocess.PIPE, "stdin": None if reads_input else subprocess.DEVNULL}
    ran = subprocess.Popen(call, **how)
    try:
        return ran.communicate()[1]
    finally:
        ran.terminate()
        ran.wait()


def tell_no_answer(errors):
    """Says why rt try gave no answer."""
    found = NO_ANSWER_LINE.search(errors)
    if not found:
        sys.stderr.buffer.write(errors)
        say(f"the unproved program with checks at run time gave no answer, as rt try says above. {real_one()}")
        return
    why = found.group(1).decode(errors="replace")
    why = why.replace("within the time limit", f"within {SECONDS} seconds, the time that rt try gives it here")
    say(f"no answer: {why}. That is a limit of rt try and not of the program, and files that were begun may be there in part. {real_one()}")


def real_one():
    """The command that proves and builds the program."""
    folder = "" if os.path.realpath(os.getcwd()) == os.path.realpath(ROOT) else f" -C {ROOT}"
    return f"`make{folder}` proves and builds the real one, which answers at once"


def is_command(command, given):
    """Whether words are a command of the program."""
    forms = COMMANDS.get(command, [])
    if not forms or len(forms) != len(given):
        return False
    checks = {"NAME": lambda _, text: None if re.fullmatch("[!-~]{1,64}", text) else text, **dict.fromkeys(MADE, of_made)}
    return all(checks.get(form, of_file_word)(form, text) is None for form, text in zip(forms, given))


def answer(why, command, given, room):
    """Runs the program for these words, and returns the exit status."""
    asked, began = Try(os.getcwd(), room), time.monotonic()
    try:
        words = asked.words(command, given)
    except OSError:
        tell(b"dmixlab: read %s\n" % os.fsencode(given[0]), [command, *given])
        return NOT_READ
    is_seen = sys.stderr.isatty()
    if is_seen:
        print(f"dmixlab: {why}, so it is compiled without a proof, which takes about a minute ..", end="", file=sys.stderr, flush=True)
    try:
        errors = run_rt(asked, words, any(it in STREAMS for it in given))
    except OSError as error:
        say(f"can't run the command rt: {error.strerror}")
        return NO_ANSWER
    if is_seen:
        print("\r\033[K", end="", file=sys.stderr, flush=True)
    ended = ENDED_LINE.search(errors)
    if not ended:
        tell_no_answer(errors)
        return NO_ANSWER
    tell(asked.said(errors), [command, *given])
    took = f"{time.monotonic() - began:.0f} s"
    say(f"{why}, so this was the unproved program with checks at run time, which took {took}. {real_one()}")
    return int(ended.group(1))


def main(why="", *words):
    if not why:
        say("try_run.py has the words WHY and those of ./dmixlab, which calls it")
        return WORDS
    command, given = words[0] if words else "", words[1:]
    if not is_command(command, given):
        tell(b"dmixlab: words\n", list(words))
        return WORDS
    if command == "make":
        say(f"{why}, and `make`, which stores files where it runs, needs the built one. {real_one()}")
        return NO_ANSWER
    for it in (signal.SIGTERM, signal.SIGHUP):
        signal.signal(it, lambda number, _: sys.exit(128 + number))
    with tempfile.TemporaryDirectory(prefix="dmixlab-") as room, contextlib.suppress(KeyboardInterrupt):
        return answer(why, command, given, room)
    return 130


if __name__ == "__main__":
    sys.exit(main(*sys.argv[1:]))
