"""What a run may leave in which calls failed: its status, the text on its outputs, and its files."""
from __future__ import annotations

import errno

import shim

READ, WRITE, MEMORY = 4, 5, 6
# calls of a file that is read, and of one that is written, whose failing is told
OF_INPUT, OF_OUTPUT = ("open", "read", "seek"), ("open", "write", "seek", "sync")
# a call that was interrupted is made again, and one that moved some bytes is gone on with
HARMLESS = (errno.EINTR, shim.ONE_BYTE)
# the bytes of a WAV file's sizes, which are all ones while its length isn't known
SIZES = (*range(4, 8), *range(40, 44))
# how much of a session was done
NOTHING, PART, ALL = range(3)
MOST_SHOWN = 100


def status_of(session, call, how):
    """The statuses to which a call leads that failed in this way; an empty set for a call of a file that no session has."""
    unchanged = {session.status}
    if call.kind == "memory":
        return unchanged | {MEMORY}
    if call.kind in ("thread", "stat") or call.name in ("stdin", "stderr"):
        return unchanged
    is_output = call.name == "stdout" or call.name in session.outputs()
    is_input = call.name in session.inputs() and not is_output
    if call.kind == "close":
        # the standard library of Rattle closes a file when it is let go, and answers nothing
        return unchanged | {WRITE} if is_output else unchanged
    if how in HARMLESS:
        return unchanged
    if how == errno.ENOMEM and (is_input or is_output):
        return {MEMORY}
    if is_output and call.kind in OF_OUTPUT:
        return {WRITE}
    return {READ} if is_input and call.kind in OF_INPUT else set()


def statuses_of(session, hits, how):
    """The statuses to which these calls lead that failed, in their order."""
    allowed = set()
    for call in hits:
        found = status_of(session, call, how)
        allowed |= found - {session.status}
        if session.status not in found:
            return allowed
    return allowed | {session.status}


def is_first_part(found, wanted, is_begun):
    """Whether bytes are the first of others; the sizes in the head of a file that was begun may not be known yet."""
    if len(found) > len(wanted):
        return False
    return all(a == b or (is_begun and at in SIZES and a == 0xFF) for at, (a, b) in enumerate(zip(found, wanted)))


def is_right(session, outcome, name, found, extent):
    """Whether a file holds what it may where so much was done; None stands for a file that isn't there."""
    before, wanted = session.files.get(name), outcome.leaves.get(name)
    if extent == NOTHING or wanted is None:
        return found == before
    if extent == ALL:
        return found == wanted
    return found == before or (found is not None and is_first_part(found, wanted, name in session.begun()))


def outcome_faults(session, outcome, ran):
    """What is wrong on standard output and in the files, where this outcome was on the way."""
    extent = ALL if ran.status == session.status else PART if ran.status in (WRITE, MEMORY) else NOTHING
    wanted = b"" if extent == NOTHING else outcome.out
    is_text = wanted.startswith(ran.out) if extent == PART else ran.out == wanted
    said = [] if is_text else [f"out is {ran.out!r:.{MOST_SHOWN}}"]
    for name in sorted({*session.files, *outcome.leaves, *ran.files}):
        found = ran.files.get(name)
        if not is_right(session, outcome, name, found, extent):
            said.append(f"{name} {'is missing' if found is None else f'has {len(found)} other bytes'}")
    return said


def line_of(session, status, hits):
    """What standard error must have: the line of the status, which names the first file that failed."""
    if status == session.status:
        return session.errors
    if status == READ:
        names = [it.name.encode() + b"\n" for it in hits if it.name in session.inputs()]
        return b"dmixlab: read " + b"".join(names[:1])
    return b"dmixlab: write\n" if status == WRITE else b"dmixlab: memory\n"


def error_faults(session, ran, hits):
    """What is wrong on standard error: where its own writes failed, or memory for the line, it may have less; so where that isn't known."""
    line = line_of(session, ran.status, hits or ())
    may_lack = hits is None or any(it.kind == "memory" or it.name == "stderr" for it in hits)
    if ran.errors == line or (may_lack and line.startswith(ran.errors)):
        return []
    return [f"errors is {ran.errors!r:.{MOST_SHOWN}} and not {line!r:.{MOST_SHOWN}}"]


def has_kept_status(session, runs):
    """Whether the line of a session's status alone had no memory in one of some runs, which had the same status then."""
    return any(ran.status == session.status and not ran.errors for ran in runs)


def faults_of(session, ran, allowed, hits):
    """All that is wrong in what a run left, of which these statuses are allowed and in which these calls failed; None: it isn't known."""
    if ran.status is None:
        return [f"it hadn't ended after {shim.MOST_SECONDS} seconds"]
    if ran.status < 0:
        return [f"it ended by the signal {-ran.status}"]
    if ran.status not in allowed:
        return [f"status {ran.status}, and not {' or '.join(map(str, sorted(allowed))) or 'one that is known of this file'}"]
    return error_faults(session, ran, hits) + min((outcome_faults(session, it, ran) for it in session.outcomes), key=len)
