"""The check of random runs: its sessions, what it excuses, and what it makes of a program's answers."""
import os
import sys
import tempfile
import unittest

HERE = os.path.dirname(os.path.abspath(__file__))
sys.path.insert(0, os.path.dirname(HERE))

import check_runs

# a program whose run leaves a file and a report, and whose check ends as the file `says` has it, and, where the file was changed, with 7
PROGRAM = """#!/bin/sh
if [ "$1" = run ]; then printf 'dmixlab 1\\nplayed 0 0\\nend\\n'; printf abcd >o.wav; exit 0; fi
[ "$(cat o.wav)" = abcd ] || { echo 'dmixlab: no: line 2' >&2; exit 7; }
%s
"""
TWICE = """dmixlab 1
0 a open = ok PREPARED -
0 a close = ok OPEN -
0 a open = ok PREPARED -
1 a write 9 = EPIPE late 64 0 XRUN 80
1 b write 9 = EPIPE late 64 0 XRUN 80
end
"""


class Runs(unittest.TestCase):
    def answered(self, check):
        """What comes of a session by a program whose check ends so."""
        with tempfile.TemporaryDirectory() as room:
            program = os.path.join(room, "program")
            with open(program, "w", encoding="utf-8") as file:
                file.write(PROGRAM % check)
            os.chmod(program, 0o755)
            return check_runs.run(program, 1)

    def test_a_session_is_the_same_for_the_same_seed(self):
        self.assertEqual(check_runs.Session(5).files, check_runs.Session(5).files)
        self.assertNotEqual(check_runs.Session(5).files["s"], check_runs.Session(6).files["s"])

    def test_what_is_excused(self):
        self.assertTrue(check_runs.is_excused(TWICE.encode(), 5))
        for line in (0, 1, 4, 6, 7, 8):
            self.assertFalse(check_runs.is_excused(TWICE.encode(), line))

    def test_a_check_that_passes(self):
        self.assertFalse(self.answered("exit 0"))

    def test_a_check_that_refuses(self):
        for answer in ("echo 'dmixlab: no: line 2' >&2; exit 7", "exit 7", "exit 4"):
            with self.assertRaises(check_runs.Wrong):
                self.answered(answer)


if __name__ == "__main__":
    unittest.main()
