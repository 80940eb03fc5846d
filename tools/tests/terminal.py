"""A program run with its standard error on a terminal, for tests: what the terminal got, and the program's status and standard output."""
import os
import pty
import subprocess
import threading


class Shown:
    """What a program showed: its status, its standard output, and the bytes on its terminal, whose lines end with a line feed alone."""

    def __init__(self, status, out, screen):
        self.status, self.out, self.screen = status, out, screen.replace(b"\r\n", b"\n").decode("utf-8", "surrogateescape")


def read_all(descriptor, parts):
    while True:
        try:
            part = os.read(descriptor, 65536)
        except OSError:
            return
        if not part:
            return
        parts.append(part)


def on_terminal(words, during=None, **how):
    """Runs words with standard error on a terminal of its own; `during` gets the running program."""
    master, slave = pty.openpty()
    parts = []
    reader = threading.Thread(target=read_all, args=(master, parts))
    how = {"stdin": subprocess.DEVNULL, "stdout": subprocess.PIPE, **how}
    with subprocess.Popen(words, stderr=slave, **how) as ran:
        os.close(slave)
        reader.start()
        if during:
            during(ran)
        out = ran.communicate()[0]
    reader.join()
    os.close(master)
    return Shown(ran.returncode, (out or b"").decode(), b"".join(parts))
