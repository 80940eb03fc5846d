"""Files that can't be sought: pipes and FIFOs in place of what is read, of more bytes than a pipe holds, and of what is written."""
from __future__ import annotations

import os
import subprocess
import tempfile
from dataclasses import dataclass, field

import judge
import sessions
import shim

# more than a piece of 65,536 bytes, and than a pipe holds
LONG = 200_000


@dataclass
class Stream:
    """A session, with FIFOs in place of some files: those that are read with the bytes that are written into them, those that are written
    with whether someone reads them; what standard input is given by a pipe; and the status that is wanted."""

    name: str
    session: sessions.Session
    read: dict[str, bytes] = field(default_factory=dict)
    written: dict[str, bool] = field(default_factory=dict)
    given: bytes | None = None
    status: int = 0


def padded(text):
    """A text with comments before it, so that it is long."""
    return b"#" * 99 + b"\n" + (b"# " + b"-" * 97 + b"\n") * (LONG // 100) + text


def renamed(session, old, new):
    """A session that names another file in its words."""
    words = [new if word == old else word for word in session.words]
    return sessions.Session(session.name, words, session.files, session.status, session.errors, session.outcomes)


def refused(session, errors):
    """A session that reads as far as it can, and leaves nothing."""
    return sessions.Session(session.name, session.words, session.files, judge.READ, errors, [sessions.Outcome(b"")])


def two_of_one_file():
    """Two clients that name one file."""
    script = b"card channels 1 rate 48000 period 64 ring 256\nclient a a.wav\nclient b a.wav\nopen a\nopen b\n"
    return sessions.Session("two clients of one file", [b"run", b"s", b"o"], {"s": script}, 0, b"", [sessions.Outcome(b"")])


def all_streams():
    """The sessions with pipes and FIFOs."""
    one = sessions.of_corpus("examples", "one client plays one file")
    mixed, make = sessions.mixed(), sessions.of_corpus("workloads", "the smallest workload")
    refine, conf = sessions.of_corpus("parameters", "what a slave leaves"), sessions.of_corpus("devices", "the mixer of alsa-lib's manual")
    script = padded(one.files["s"])
    long_sound = sessions.wav([n % 512 for n in range(LONG)])
    yield Stream("a short script from a FIFO", one, {"s": one.files["s"]})
    yield Stream("a long script from a FIFO", one, {"s": script})
    yield Stream("a long script from /dev/stdin", renamed(one, b"s", b"/dev/stdin"), given=script)
    yield Stream("a long script from /dev/fd/0", renamed(one, b"s", b"/dev/fd/0"), given=script)
    yield Stream("a long WAV file from a FIFO", one, {"ramp.wav": long_sound})
    yield Stream("script and WAV file from FIFOs", one, {"s": script, "ramp.wav": long_sound})
    yield Stream("a captured file from a FIFO", mixed, {"c.wav": sessions.wav([n % 32768 for n in range(LONG)])})
    yield Stream("a long text of refine from a FIFO", refine, {"t": padded(refine.files["t"])})
    yield Stream("a long configuration from a FIFO", conf, {"c": padded(conf.files["c"])})
    again = refused(two_of_one_file(), b"dmixlab: read a.wav\n")
    yield Stream("a FIFO that is named twice", again, {"a.wav": long_sound}, status=judge.READ)
    yield Stream("OUT is a FIFO that is read", one, written={"o.wav": True}, status=judge.WRITE)
    yield Stream("OUT is a FIFO that nobody reads", one, written={"o.wav": False}, status=judge.WRITE)
    yield Stream("a reader's file is a FIFO", mixed, written={"o.r.wav": True}, status=judge.WRITE)
    yield Stream("make stores into a FIFO", make, written={"made-0.wav": True}, status=judge.WRITE)
    yield Stream("make begins a FIFO", make, written={"made.wav": True}, status=judge.WRITE)


def fill(room, name, data):
    """Starts a process that writes these bytes into a FIFO of this name."""
    os.mkfifo(f"{room}/{name}")
    with tempfile.TemporaryFile() as held:
        held.write(data)
        held.seek(0)
        return subprocess.Popen(["sh", "-c", 'exec cat >"$0"', f"{room}/{name}"], stdin=held, stderr=subprocess.DEVNULL)


def empty(room, name, is_read):
    """Makes a FIFO of this name, and starts a process that reads it, where it is to be read."""
    os.mkfifo(f"{room}/{name}")
    return subprocess.Popen(["cat", f"{room}/{name}"], stdout=subprocess.PIPE) if is_read else None


def end(process):
    """Ends a process, and gives what it read."""
    process.terminate()
    return process.communicate()[0] or b""


def ran_in(room, program, stream):
    """Runs a session in a folder, whose FIFOs are there."""
    how = {"cwd": room, "capture_output": True, "timeout": shim.MOST_SECONDS, "check": False}
    how |= {"input": stream.given} if stream.given is not None else {"stdin": subprocess.DEVNULL}
    try:
        ran = subprocess.run([program.encode(), *stream.session.words], **how)
    except subprocess.TimeoutExpired as late:
        return shim.Ran(None, late.stdout or b"", late.stderr or b"", {})
    return shim.Ran(ran.returncode, ran.stdout, ran.stderr, shim.files_in(room))


def ran_with(program, stream):
    """A run of a session with its pipes, and what is wrong in it."""
    session = stream.session
    fifos = {*stream.read, *stream.written}
    files = {name: data for name, data in session.files.items() if name not in fifos}
    with tempfile.TemporaryDirectory(prefix="faults-") as room:
        shim.store_all(room, files)
        writers = [fill(room, name, data) for name, data in stream.read.items()]
        readers = [empty(room, name, is_read) for name, is_read in stream.written.items()]
        ran = ran_in(room, program, stream)
        heads = [end(it) for it in readers if it]
        for it in writers:
            end(it)
    outcomes = [sessions.Outcome(it.out, {name: data for name, data in it.leaves.items() if name not in fifos}) for it in session.outcomes]
    held = sessions.Session(session.name, session.words, files, session.status, session.errors, outcomes)
    said = judge.faults_of(held, ran, {stream.status}, [])
    return ran, said + [f"the FIFO got {len(it)} bytes" for it in heads if it]


def results(program, text):
    """The runs with pipes and FIFOs whose names have the text, and what is wrong in each."""
    for stream in all_streams():
        if text in stream.name:
            yield stream, *ran_with(program, stream)
