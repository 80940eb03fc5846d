"""What maintenance/run_tests.py runs and counts, with a stand-in for rt."""
import os
import shutil
import subprocess
import sys
import tempfile
import unittest

ROOT = os.path.join(os.path.dirname(os.path.abspath(__file__)), "..", "..")

# it notes the crate and its words, and says what the crate's file `says` has: of tests on standard error, of a program on its output
RT = """#!/bin/sh
case $1 in
  version) echo kit-1 logic 7; exit ;;
  doc) echo "$(dirname "$(dirname "$0")")/START.md"; exit ;;
esac
echo "$(basename "$PWD") $*" >>"$CALLS"
case $* in
  *--test*) cat says >&2 ;;
  *) cat says; echo "run=ended status=0 runners=1 proved=no" >&2 ;;
esac
"""
TESTED = "test a ... ok\ntest result: FAILED. {} passed; {} failed; 0 ignored; 0 filtered out\nrun=ended status=0 proved=no\n"


class RunTests(unittest.TestCase):
    def setUp(self):
        self.room = tempfile.TemporaryDirectory()
        self.addCleanup(self.room.cleanup)
        self.at = os.path.realpath(self.room.name)
        self.write("repo/README.md", "")
        self.write("repo/crates.txt", "plain:\nlow:\ncases: low\ncopy: low\n")
        self.write("repo/crates/plain/src/lib.rt", "fn f() {}\n")
        self.write("repo/crates/low/src/tests/one.rt", "#[test]\nfn a() {}\n")
        self.write("repo/crates/low/says", TESTED.format(2, 0))
        self.program("cases", "a: 3 passed, 0 failed\ncases: 7 passed, 0 failed\n", args="a.cases\n=x y\n", **{"data/sub/a.cases": ""})
        self.program("copy", "copied\n", stdin="to be copied\n")
        for name in ("maintenance/run_tests.py", "maintenance/crate_graph.py", "tools/machine.py", "tools/command.py"):
            os.makedirs(os.path.dirname(f"{self.at}/repo/{name}"), exist_ok=True)
            shutil.copy(f"{ROOT}/{name}", f"{self.at}/repo/{name}")
        self.write("kit/bin/rt", RT)
        self.write("kit/bin/rattle", "")
        for name in ("rt", "rattle"):
            os.chmod(f"{self.at}/kit/bin/{name}", 0o755)

    def program(self, name, out, **files):
        for file, text in {"src/main.rt": "fn main() {}\n", "stdout": out, "says": out, **files}.items():
            self.write(f"repo/crates/{name}/{file}", text)

    def write(self, name, text):
        os.makedirs(os.path.dirname(f"{self.at}/{name}"), exist_ok=True)
        with open(f"{self.at}/{name}", "w") as file:
            file.write(text)

    def run_it(self, *words):
        self.write("calls", "")
        variables = {"PATH": f"{self.at}/kit/bin:{os.environ['PATH']}", "CALLS": f"{self.at}/calls"}
        words = [sys.executable, f"{self.at}/repo/maintenance/run_tests.py", *words]
        ran = subprocess.run(words, env=variables, capture_output=True, text=True)
        with open(f"{self.at}/calls") as file:
            return ran, file.read().splitlines()

    def test_tests_cases_and_programs_are_counted(self):
        ran, calls = self.run_it()
        self.assertEqual((ran.returncode, ran.stdout.splitlines()[-1]), (0, "10 passed, 0 failed"))
        self.assertEqual(sorted(it.split()[0] for it in calls), ["cases", "copy", "low"])

    def test_a_program_gets_its_files_and_words(self):
        call = self.run_it("cases")[1][0]
        self.assertRegex(call, r"^cases try --seconds \d+ --data sub/a\.cases=/\S+/data/sub/a\.cases -- a\.cases =x y$")

    def test_a_test_that_fails_is_counted_and_shown(self):
        self.write("repo/crates/low/says", TESTED.format(1, 1))
        ran = self.run_it("low")[0]
        self.assertEqual((ran.returncode, ran.stdout.splitlines()[-1]), (1, "1 passed, 1 failed"))
        self.assertIn("test a ... ok", ran.stdout)

    def test_another_output_and_no_answer_are_failures(self):
        self.write("repo/crates/copy/says", "another one\n")
        self.write("repo/crates/low/says", "run=none proved=no\n")
        ran = self.run_it("copy", "low")[0]
        self.assertEqual((ran.returncode, ran.stdout.splitlines()[-1]), (1, "0 passed, 2 failed"))

    def test_a_case_that_fails_is_counted(self):
        self.write("repo/crates/cases/says", "cases: 6 passed, 1 failed\n")
        self.assertEqual(self.run_it("cases")[0].stdout.splitlines()[-1], "6 passed, 1 failed")

    def test_cases_without_a_total_are_summed(self):
        self.program("cases", "a.cases: 3 passed, 0 failed\nb.cases: 2 passed, 0 failed\n")
        self.assertEqual(self.run_it("cases")[0].stdout.splitlines()[-1], "5 passed, 0 failed")

    def test_an_unknown_crate_is_said(self):
        ran = self.run_it("none")[0]
        self.assertEqual(ran.returncode, 2)
        self.assertIn("'none' is no crate of crates.txt; there are: plain, low, cases, copy", ran.stderr)


if __name__ == "__main__":
    unittest.main()
