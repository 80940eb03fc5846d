"""The faults by a stand-in for the program: nothing is found where it is right, and each thing that is wrong in it is."""
import contextlib
import errno
import io
import os
import shutil
import subprocess
import sys
import tempfile
import unittest
from dataclasses import replace
from unittest import mock

HERE = os.path.dirname(os.path.abspath(__file__))
sys.path.insert(0, os.path.dirname(HERE))

import faults
import judge
import sessions
import shim

COMPILER = shutil.which(os.environ.get("CC", "cc"))
CONTENT = b"some bytes of a file"


def session():
    """A copy by the stand-in."""
    outcome = sessions.Outcome(b"done\n", {"to": CONTENT})
    return sessions.Session("a copy", [b"copy", b"from", b"to"], {"from": CONTENT}, 0, b"", [outcome])


def ran(status, out=b"", errors=b"", **files):
    """What a run of the session left."""
    return shim.Ran(status, out, errors, {"from": CONTENT, **files})


def hit(kind, name):
    return shim.Call(kind, 1, name, True)


class Judging(unittest.TestCase):
    def wrong(self, left, *hits, how=errno.EIO):
        it = session()
        return judge.faults_of(it, left, judge.statuses_of(it, hits, how), hits)

    def test_a_read_that_fails_is_status_4_and_changes_nothing(self):
        line = b"dmixlab: read from\n"
        self.assertEqual(self.wrong(ran(4, errors=line), hit("read", "from")), [])
        self.assertEqual(len(self.wrong(ran(4, b"done\n", line), hit("read", "from"))), 1)
        self.assertEqual(len(self.wrong(ran(4, b"", line, to=CONTENT), hit("read", "from"))), 1)
        self.assertEqual(len(self.wrong(ran(0, b"done\n", to=CONTENT), hit("read", "from"))), 1)

    def test_a_write_that_fails_is_status_5_and_leaves_first_parts(self):
        line = b"dmixlab: write\n"
        for kind in ("open", "write", "sync"):
            self.assertEqual(self.wrong(ran(5, b"", line, to=CONTENT[:4]), hit(kind, "to")), [])
            self.assertEqual(self.wrong(ran(5, b"", line), hit(kind, "to")), [])
            self.assertEqual(len(self.wrong(ran(0, b"done\n", to=CONTENT), hit(kind, "to"))), 1)
        self.assertEqual(self.wrong(ran(5, b"do", line, to=CONTENT), hit("write", "stdout")), [])
        self.assertEqual(len(self.wrong(ran(5, b"oh", line, to=CONTENT), hit("write", "stdout"))), 1)
        self.assertEqual(len(self.wrong(ran(5, b"", line, to=b"other"), hit("write", "to"))), 1)

    def test_what_is_interrupted_or_moves_a_part_changes_nothing(self):
        for how in (errno.EINTR, shim.ONE_BYTE):
            self.assertEqual(self.wrong(ran(0, b"done\n", to=CONTENT), hit("read", "from"), how=how), [])
            self.assertEqual(len(self.wrong(ran(4, errors=b"dmixlab: read from\n"), hit("read", "from"), how=how)), 1)

    def test_refused_memory_is_status_6_or_nothing(self):
        self.assertEqual(self.wrong(ran(0, b"done\n", to=CONTENT), hit("memory", "-"), how=errno.ENOMEM), [])
        self.assertEqual(self.wrong(ran(6, errors=b"dmixlab: memory\n"), hit("memory", "-"), how=errno.ENOMEM), [])
        self.assertEqual(self.wrong(ran(6), hit("memory", "-"), how=errno.ENOMEM), [])
        self.assertEqual(len(self.wrong(ran(5, errors=b"dmixlab: write\n"), hit("memory", "-"), how=errno.ENOMEM)), 1)

    def test_a_line_without_memory_keeps_the_status(self):
        it = replace(session(), status=2, errors=b"dmixlab: script line 0: NoCard\n")
        lacking = [ran(6, errors=b"dmixlab: memory\n"), ran(6), ran(2, errors=it.errors)]
        self.assertFalse(judge.has_kept_status(it, lacking))
        self.assertTrue(judge.has_kept_status(it, [*lacking, ran(2)]))

    def test_a_thread_that_cannot_be_made_changes_nothing(self):
        self.assertEqual(self.wrong(ran(0, b"done\n", to=CONTENT), hit("thread", "-"), how=errno.EAGAIN), [])
        self.assertEqual(len(self.wrong(ran(0), hit("thread", "-"), how=errno.EAGAIN)), 2)

    def test_the_first_fault_that_is_told_decides(self):
        hits = [hit("close", "from"), hit("write", "to"), hit("write", "stderr")]
        self.assertEqual(judge.statuses_of(session(), hits, errno.EIO), {5})
        self.assertEqual(judge.statuses_of(session(), [hit("memory", "-")] * 2, errno.ENOMEM), {0, 6})

    def test_an_end_by_a_signal_and_no_end_are_wrong(self):
        self.assertEqual(self.wrong(ran(-11), hit("memory", "-")), ["it ended by the signal 11"])
        self.assertEqual(len(self.wrong(ran(None), hit("memory", "-"))), 1)

    def test_a_head_whose_sizes_are_not_known_is_a_first_part_of_a_file_that_was_begun(self):
        wanted = sessions.wav([1, 2, 3])
        opened = wanted[:4] + b"\xff" * 4 + wanted[8:40] + b"\xff" * 4 + wanted[44:46]
        self.assertTrue(judge.is_first_part(opened, wanted, True))
        self.assertFalse(judge.is_first_part(opened, wanted, False))
        self.assertFalse(judge.is_first_part(opened + b"xxxx", wanted, True))
        self.assertFalse(judge.is_first_part(wanted + b"x", wanted, True))


class Sessions(unittest.TestCase):
    def test_each_has_what_it_must_leave(self):
        found = sessions.all_sessions()
        self.assertEqual(len({it.name for it in found}), len(found))
        self.assertTrue({b"run", b"check", b"refine", b"conf", b"make", b"--help"} <= {word for it in found for word in it.words[:1]})

    def test_the_mixed_one_may_end_in_eight_ways(self):
        outcomes = sessions.mixed().outcomes
        self.assertEqual(len({it.out for it in outcomes}), 8)
        played = {it.leaves["o.wav"] for it in outcomes}
        self.assertEqual(played, {sessions.wav([0] * 64 + it) for it in (
            [32767] * 64 + [0] * 64, [0] * 64 + [32767] * 64, [1000] * 64 + [32000] * 64, [32000] * 64 + [1000] * 64)})


@unittest.skipUnless(COMPILER, "there is no C compiler")
class Sweeps(unittest.TestCase):
    def swept(self, wrong, limits=()):
        """The status and the text of a sweep over the stand-in, in which one thing is wrong, within these limits."""
        with tempfile.TemporaryDirectory() as room:
            program = f"{room}/stand-in"
            subprocess.run([COMPILER, f"-DWRONG={wrong}", "-o", program, f"{HERE}/stand_in.c", "-lpthread"], check=True)
            out = io.StringIO()
            with contextlib.ExitStack() as changed:
                for module, name, value in (
                    (sessions, "all_sessions", lambda: [session()]),
                    (faults.streams, "results", lambda *_: []),
                    (faults, "LIMITS", limits),
                    (shim, "MOST_SECONDS", 0.5),
                ):
                    changed.enter_context(mock.patch.object(module, name, value))
                changed.enter_context(contextlib.redirect_stdout(out))
                status = faults.main([program])
        return status, out.getvalue()

    def test_nothing_is_found_where_nothing_is_wrong(self):
        status, text = self.swept("RIGHT", faults.LIMITS)
        self.assertEqual((status, [it for it in text.splitlines() if it.startswith("WRONG")]), (0, []))
        self.assertRegex(text, r"(?m)^close +EIO, each +2 +1 +- +1 +- +-$")
        self.assertRegex(text, r"(?m)^read +EIO, each +2 +- +2 +- +- +-$")

    def test_each_thing_that_is_wrong_is_found(self):
        for wrong, line in (
            ("IGNORES_WRITES", "write 1 (to), ENOSPC, each: status 0, and not 5"),
            ("CRASHES", "it ended by the signal 11"),
            ("WAITS", "it hadn't ended after 0.5 seconds"),
            ("GIVES_UP", "read 1 (from), EINTR, each: status 4, and not 0"),
            ("CHANGES", "to has 1 other bytes"),
            ("TALKS", "out is b'oh'"),
            ("NEEDS_A_THREAD", "thread 1 (-), EAGAIN, each: out is b''"),
        ):
            with self.subTest(wrong):
                status, text = self.swept(wrong)
                self.assertEqual((status, line in text), (1, True), text)

    def test_words_that_name_no_program_are_refused(self):
        with contextlib.redirect_stderr(io.StringIO()):
            self.assertEqual([faults.main(it) for it in ([], ["/nope"], ["/bin/true", "x"])], [2, 2, 2])


if __name__ == "__main__":
    unittest.main()
