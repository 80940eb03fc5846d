"""The sweep of refused allocations by a stand-in for the runner of cases."""
import contextlib
import io
import os
import shutil
import subprocess
import sys
import tempfile
import unittest

HERE = os.path.dirname(os.path.abspath(__file__))
sys.path.insert(0, os.path.dirname(HERE))

import fail_alloc
import shim

COMPILER = shutil.which(os.environ.get("CC", "cc"))
CASES = "case one\nmemory\ncall run s o\n\ncase one more\ncall run s o\n"
# A runner that takes memory three times: for itself, for the call, and for what it says.
RUNNER = """
#include <stdlib.h>
#include <string.h>
#include <unistd.h>
static void say(const char *text) {
  if (write(1, text, strlen(text))) {
  }
}
int main(int count, char **words) {
  if (count != 3 || strcmp(words[1], "==one") || !malloc(9))
    return 1;
  if (!malloc(9))
    WITHOUT_MEMORY;
  if (!malloc(9))
    return 1;
  say("it.cases: 1 passed, 0 failed\\nsessions: 1 passed, 0 failed\\n");
  return 0;
}
"""


class Findings(unittest.TestCase):
    def test_an_end_without_a_failed_case_is_right(self):
        for status, out in ((0, fail_alloc.PASSED), (1, b""), (1, b"it.cases: 0 passed, 0 failed\n")):
            self.assertIsNone(fail_alloc.wrong_in(shim.Ran(status, out, b"", {})))

    def test_a_failed_case_a_signal_and_no_end_are_wrong(self):
        for status, out in ((1, b"FAIL it.cases:1: one\n  status: 5 (wanted 0)\n"), (-11, b""), (None, b"")):
            self.assertIsNotNone(fail_alloc.wrong_in(shim.Ran(status, out, b"", {})))


@unittest.skipUnless(COMPILER, "there is no C compiler")
class Sweeps(unittest.TestCase):
    def swept(self, without_memory, *words):
        """The status and the text of a sweep over the stand-in, which does this where the call has no memory."""
        with tempfile.TemporaryDirectory() as room:
            source = RUNNER.replace("WITHOUT_MEMORY", without_memory)
            words_of_compiler = [COMPILER, "-O0", "-x", "c", "-", "-o", f"{room}/sessions"]
            subprocess.run(words_of_compiler, input=source.encode(), check=True)
            with open(f"{room}/it.cases", "w") as file:
                file.write(CASES)
            out = io.StringIO()
            with contextlib.redirect_stdout(out):
                return fail_alloc.main([f"{room}/sessions", f"{room}/it.cases", *words]), out.getvalue()

    def test_each_allocation_is_refused_until_none_is_left(self):
        status, text = self.swept('say("sessions: 1 passed, 0 failed\\n")')
        self.assertEqual((status, text), (0, "one: 7 runs, 3 passed, 0 wrong\n"))

    def test_a_case_that_fails_and_a_crash_are_found(self):
        for body, found in (('say("FAIL it.cases:1: one\\n")', "FAIL it.cases:1: one"), ("abort()", "it ended by the signal 6")):
            status, text = self.swept(body)
            self.assertEqual((status, f"WRONG allocation 2 refused: {found}" in text), (1, True), text)

    def test_only_cases_that_may_lack_memory_and_are_picked_are_run(self):
        self.assertEqual(self.swept("abort()", "=another"), (0, ""))


if __name__ == "__main__":
    unittest.main()
