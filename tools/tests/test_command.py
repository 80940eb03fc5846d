"""How the commands of tools/ refuse words and what they do where an output takes no more."""
import os
import subprocess
import sys
import tempfile
import unittest

HERE = os.path.dirname(os.path.abspath(__file__))
TOOLS = os.path.dirname(HERE)
sys.path.insert(0, TOOLS)

import command
import samples


def closed_pipe():
    """An end of a pipe that nobody reads."""
    reader, writer = os.pipe()
    os.close(reader)
    return os.fdopen(writer, "wb")


def full_device():
    return open("/dev/full", "wb")


class Folders(unittest.TestCase):
    def test_what_may_be_run_says_by_what(self):
        for folder in ("tools", "maintenance", "faults"):
            folder = os.path.join(TOOLS, "..", folder)
            for name in sorted(os.listdir(folder)):
                path = os.path.join(folder, name)
                if os.path.isfile(path) and os.access(path, os.X_OK):
                    with open(path, "rb") as file:
                        self.assertEqual(file.read(2), b"#!", path)


class Outputs(unittest.TestCase):
    """Each command that prints ends with status 5 and one line where that can't be written."""

    def setUp(self):
        self.room = tempfile.TemporaryDirectory()
        self.addCleanup(self.room.cleanup)
        self.report = f"{self.room.name}/it.report"
        self.store("it.report", samples.LATE)
        self.store("it.expect", "end\n")
        self.store("it.cases", "case a\ncall x\nout\n  y\n")

    def store(self, name, text):
        with open(f"{self.room.name}/{name}", "w") as file:
            file.write(text)

    def calls(self):
        yield "read_report.py", self.report
        yield "read_report.py", self.report, "--json"
        yield "read_report.py", "--help"
        yield "expect_report.py", self.report, f"{self.room.name}/it.expect"
        yield "play_file.py", f"{TOOLS}/../demo/high.wav"
        yield "timeline.py", self.report
        yield "timeline.py", self.report, "--text"
        yield "cases.py", "run", "/bin/true", f"{self.room.name}/it.cases"
        yield "cases.py", "complete", f"{self.room.name}/it.cases"
        yield "cases.py", "--help"
        yield ("machine.py",)

    def ended_with(self, words, status, **outputs):
        words = [sys.executable, f"{TOOLS}/{words[0]}", *words[1:]]
        ran = subprocess.run(words, stdin=subprocess.DEVNULL, stderr=subprocess.PIPE, text=True, **outputs)
        self.assertEqual((ran.returncode, len(ran.stderr.splitlines())), (status, 1), (words, ran.stderr))
        return ran.stderr

    def test_a_full_device_and_a_closed_pipe_have_a_status_and_a_line(self):
        for words in self.calls():
            for output, reason in ((full_device, "No space left on device"), (closed_pipe, "Broken pipe")):
                with output() as out:
                    said = self.ended_with(words, command.NOT_WRITTEN, stdout=out)
                self.assertEqual(said, f"{words[0][:-3]}: can't write standard output: {reason}\n")

    def test_a_closed_output_is_one_that_takes_no_more(self):
        call = f'exec "{sys.executable}" "{TOOLS}/read_report.py" "$0" >&-'
        ran = subprocess.run(["sh", "-c", call, self.report], stderr=subprocess.PIPE, text=True)
        self.assertEqual((ran.returncode, len(ran.stderr.splitlines())), (command.NOT_WRITTEN, 1))

    def test_a_picture_that_can_t_be_stored_is_said(self):
        for path, reason in (("/dev/full", "No space left on device"), ("/nope/it.svg", "No such file or directory")):
            said = self.ended_with(("timeline.py", self.report, "--svg", path), command.NOT_WRITTEN)
            self.assertEqual(said, f"timeline: can't write {path}: {reason}\n")

    def test_the_status_is_kept_where_standard_error_takes_no_more(self):
        for redirect in ("2>/dev/full", "2>&-"):
            call = f'exec "{sys.executable}" "{TOOLS}/read_report.py" /nope {redirect}'
            ran = subprocess.run(["sh", "-c", call], stdout=subprocess.PIPE, text=True)
            self.assertEqual((ran.returncode, ran.stdout), (command.REFUSED, ""))


class Words(unittest.TestCase):
    def test_words_that_a_command_doesn_t_have_are_refused_by_a_line(self):
        for words in (
            ("read_report.py",),
            ("read_report.py", "/nope"),
            ("read_report.py", "/"),
            ("read_report.py", "r", "--wrong"),
            ("read_report.py", "r", "--act", "a"),
            ("timeline.py", "/nope"),
            ("timeline.py", "r", "--columns", "0"),
            ("timeline.py", "r", "--columns", "x"),
            ("timeline.py", "r", "--columns", "50"),
            ("cases.py",),
            ("cases.py", "run", "/nope", "x.cases"),
            ("machine.py", "x"),
        ):
            call = [sys.executable, f"{TOOLS}/{words[0]}", *words[1:]]
            ran = subprocess.run(call, stdin=subprocess.DEVNULL, capture_output=True, text=True)
            self.assertEqual((ran.returncode, ran.stdout, len(ran.stderr.splitlines())), (command.REFUSED, "", 1), words)

    def test_a_line_is_one_line_whatever_is_in_a_word(self):
        call = [sys.executable, f"{TOOLS}/read_report.py", "/no\nsuch \033[31mfile"]
        ran = subprocess.run(call, capture_output=True, text=True)
        self.assertEqual(ran.stderr, "read_report: can't read /no\\nsuch \\x1b[31mfile: No such file or directory\n")

    def test_the_nearest_word_is_named(self):
        with self.assertRaisesRegex(command.Refused, r"^'running' is no state \(did you mean RUNNING\?\); there are: OPEN, RUNNING$"):
            command.check_known("running", ["OPEN", "RUNNING"], "state")
        with self.assertRaisesRegex(command.Refused, r"^'opne' is no op \(did you mean open\?\); there are: open, close$"):
            command.check_known("opne", ("open", "close"), "op")
        with self.assertRaisesRegex(command.Refused, r"^'zzz' is no op; there are: open, close$"):
            command.check_known("zzz", ("open", "close"), "op")


if __name__ == "__main__":
    unittest.main()
