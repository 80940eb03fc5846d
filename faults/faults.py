#!/usr/bin/env python3
"""faults.py PROGRAM [=TEXT]: makes the calls of a built program fail, one after the other, and looks at what it leaves.

For each session (sessions.py), or those whose names have the text, each call of the C library that opens, reads, writes, closes or seeks
in a file, takes memory or makes a thread fails in turn, in each way of WAYS; the session runs within limits of the system; and pipes and
FIFOs stand in place of files (streams.py). A table says how many runs there were of each way and how they ended. What is wrong is said
line by line: another status than the manual has for this fault, a file that is neither as it was nor the first part of what it was to
be, a signal, no end.

The status is 0 where nothing is wrong, 1 where something is, and 2 where there is no such program or no C compiler.
"""
from __future__ import annotations

import errno
import os
import resource
import subprocess
import sys
import tempfile
from collections import Counter
from concurrent.futures import ThreadPoolExecutor
from dataclasses import dataclass

sys.path.insert(0, os.path.dirname(os.path.abspath(__file__)))

import judge
import sessions
import shim
import streams

# which calls fail: each one alone; each one and all after it; every second one, so that each call fails once and then works; all of them
EACH, REST, ONCE, ALL = "each", "each and all after it", "each once", "all"


@dataclass(frozen=True)
class Way:
    """A way in which calls of a kind fail."""

    kind: str
    how: int
    extent: str = EACH

    def name(self):
        known = {shim.ONE_BYTE: "one byte", shim.NOTHING: "no byte"}
        return f"{known.get(self.how) or errno.errorcode[self.how]}, {self.extent}"

    def faults(self, count):
        """The faults of this way in a session that makes so many calls of the kind."""
        if self.extent in (ONCE, ALL):
            return [shim.Fault(self.kind, self.how, 1, shim.FOR_EVER, 2 if self.extent == ONCE else 1)] if count else []
        return [shim.Fault(self.kind, self.how, n, shim.FOR_EVER if self.extent == REST else n) for n in range(1, count + 1)]


WAYS = (
    *(Way("open", it) for it in (errno.EACCES, errno.EMFILE, errno.ENOMEM, errno.EINTR)),
    Way("open", errno.EMFILE, REST),
    Way("open", errno.EINTR, ONCE),
    *(Way("read", it) for it in (errno.EIO, errno.ENOMEM, errno.EINTR, shim.ONE_BYTE)),
    Way("read", errno.EIO, REST),
    Way("read", errno.EINTR, ONCE),
    Way("read", shim.ONE_BYTE, ALL),
    *(Way("write", it) for it in (errno.ENOSPC, errno.EIO, errno.ENOMEM, errno.EINTR, shim.ONE_BYTE, shim.NOTHING)),
    Way("write", errno.ENOSPC, REST),
    Way("write", errno.EINTR, ONCE),
    Way("write", shim.ONE_BYTE, ALL),
    Way("close", errno.EIO),
    Way("close", errno.EIO, REST),
    Way("seek", errno.EIO),
    Way("sync", errno.EIO),
    Way("stat", errno.EACCES),
    Way("memory", errno.ENOMEM),
    Way("memory", errno.ENOMEM, REST),
    Way("thread", errno.EAGAIN),
    Way("thread", errno.EAGAIN, REST),
)
# limits of the system: the name, which one, the numbers, and the statuses to which it may lead beside the session's own
LIMITS = (
    ("bytes of a file", resource.RLIMIT_FSIZE, (0, 1, 43, 44, 45, 100, 171, 172, 299, 300, 427, 555, 556, 900, 16427), {judge.WRITE}),
    ("bytes of memory", resource.RLIMIT_AS, (*range(2 << 20, 4 << 20, 16 << 10), *range(4 << 20, 100 << 20, 4 << 20)), {judge.MEMORY}),
)
# the rows of the table, and how a run ended that ended as without a fault
KINDS = ("none", "open", "read", "write", "close", "seek", "sync", "stat", "memory", "thread", "limit", "stream")
SAME = "as without it"
# the loader's status where it can't load the program within a limit: nothing of the program ran
NOT_LOADED = 127


class Sweep:
    """The runs of a program, and what came of them."""

    def __init__(self, program, library, pool):
        self.program, self.library, self.pool = os.path.abspath(program), library, pool
        # by (kind, way): how many runs there were, how many ended as the session does without a fault, with which other status, or wrong
        self.counts, self.wrong = {}, []

    def words(self, session):
        return [self.program.encode(), *session.words]

    def tell(self, row, session, what, ran, faults):
        """Counts a run, and says what is wrong in it."""
        counts = self.counts.setdefault(row, Counter())
        counts["runs"] += 1
        counts["wrong" if faults else SAME if ran.status == session.status else ran.status] += 1
        for it in faults:
            self.wrong.append(f"{session.name}: {what}: {it}")

    def plain(self, session):
        """Runs a session where nothing fails, and gives how many calls of each kind it made, or None where that is wrong already."""
        ran = shim.run(self.words(session), session.files, self.library)
        faults = judge.faults_of(session, ran, {session.status}, [])
        self.tell(("none", "nothing fails"), session, "nothing fails", ran, faults)
        return None if faults else Counter(it.kind for it in ran.calls)

    def judged(self, session, way, ran):
        """What is wrong in a run with a fault."""
        hits = ran.hits()
        return judge.faults_of(session, ran, judge.statuses_of(session, hits, way.how), hits)

    def way(self, session, way, count):
        """Runs a session with each fault of a way."""
        faults = way.faults(count)
        runs = list(self.pool.map(lambda it: shim.run(self.words(session), session.files, self.library, it), faults))
        if session.errors and (way.kind, way.extent) == ("memory", EACH) and not judge.has_kept_status(session, runs):
            self.wrong.append(f"{session.name}: no run in which its line alone has no memory has its status")
        for fault, ran in zip(faults, runs):
            names = sorted({it.name for it in ran.hits()})
            what = f"{way.kind} {fault.first} ({', '.join(names)}), {way.name()}"
            self.tell((way.kind, way.name()), session, what, ran, self.judged(session, way, ran))

    def limit(self, session, name, which, numbers, statuses):
        """Runs a session within each of these limits."""
        runs = self.pool.map(lambda it: shim.run(self.words(session), session.files, limits=[(which, it)]), numbers)
        for number, ran in zip(numbers, runs):
            if ran.status != NOT_LOADED:
                faults = judge.faults_of(session, ran, {session.status, *statuses}, None)
                self.tell(("limit", name), session, f"at most {number} {name}", ran, faults)

    def session(self, session):
        counts = self.plain(session)
        if counts is None:
            return
        for way in WAYS:
            self.way(session, way, counts[way.kind])
        for limit in LIMITS:
            self.limit(session, *limit)

    def table(self):
        """The rows of the table."""
        columns = ("runs", SAME, judge.READ, judge.WRITE, judge.MEMORY, "wrong")
        rows = [["call", "fault", *(f"status {it}" if isinstance(it, int) else it for it in columns)]]
        for (kind, way), counts in sorted(self.counts.items(), key=lambda row: KINDS.index(row[0][0])):
            rows.append([kind, way, *(str(counts[it] or "-") for it in columns)])
        return rows


def print_table(rows):
    widths = [max(len(row[at]) for row in rows) for at in range(len(rows[0]))]
    for row in rows:
        print("  ".join(word.ljust(width) if at < 2 else word.rjust(width) for at, (word, width) in enumerate(zip(row, widths))).rstrip())


def sweep(program, text, library):
    """Runs the sessions whose names have the text, and gives what is wrong."""
    with ThreadPoolExecutor(len(os.sched_getaffinity(0))) as pool:
        found = Sweep(program, library, pool)
        for session in sessions.all_sessions():
            if text in session.name:
                found.session(session)
        for stream, ran, faults in streams.results(found.program, text):
            found.tell(("stream", "a pipe or a FIFO"), stream.session, stream.name, ran, faults)
    print_table(found.table())
    return found.wrong


def main(words):
    if not words or len(words) > 2 or (len(words) == 2 and not words[1].startswith("=")) or not os.access(words[0], os.X_OK):
        print(__doc__.strip(), file=sys.stderr)
        return 2
    with tempfile.TemporaryDirectory(prefix="faults-") as room:
        try:
            library = shim.build(room)
        except (OSError, subprocess.CalledProcessError) as error:
            print(f"faults.py: no C compiler: {error}", file=sys.stderr)
            return 2
        wrong = sweep(words[0], words[1][1:] if len(words) == 2 else "", library)
    for it in wrong:
        print(f"WRONG {it}")
    return 1 if wrong else 0


if __name__ == "__main__":
    sys.exit(main(sys.argv[1:]))
