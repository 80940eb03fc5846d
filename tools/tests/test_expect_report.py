"""What a file of expected lines finds in a report, in both forms, and what is refused."""
import os
import sys
import tempfile
import unittest
import xml.etree.ElementTree

HERE = os.path.dirname(os.path.abspath(__file__))
sys.path.insert(0, os.path.dirname(HERE))

import expect_report
import samples
from calls import called


class Expecting(unittest.TestCase):
    def setUp(self):
        self.room = tempfile.TemporaryDirectory()
        self.addCleanup(self.room.cleanup)

    def store(self, name, text):
        path = f"{self.room.name}/{name}"
        with open(path, "wb") as file:
            file.write(text if isinstance(text, bytes) else text.encode())
        return path

    def run_on(self, report, expect, *words):
        """What the command ends with, for the texts of a report and of a file of expected lines."""
        paths = self.store("it.report", report), self.store("it.expect", expect)
        return called(expect_report, *paths, *words, folder=self.room.name)

    def faults(self, expect, report=samples.LATE):
        """The numbers of the expected lines that aren't there."""
        lines = expect_report.expected_in(self.store("it.expect", expect))
        return [it.expected.number for it in expect_report.findings_of(report, lines) if it.fault]


class Language(Expecting):
    def test_the_whole_report_and_any_part_of_it_in_order_are_there(self):
        lines = samples.LATE.splitlines()
        self.assertEqual(self.faults(samples.LATE), [])
        for at in range(len(lines)):
            self.assertEqual(self.faults("\n".join(lines[:at] + lines[at + 1 :])), [], at)

    def test_each_word_is_compared_whole(self):
        self.assertEqual(self.faults("1 a write 64 = 64 RUNNING 0"), [])
        row = "1 a write 64 = 64 RUNNING 0"
        for line in (row.replace("= 64", "= 6"), row[:-2], f"{row} 0", row[2:]):
            self.assertEqual(self.faults(line), [1], line)

    def test_a_star_is_one_word(self):
        for line in ("1 a write * = 64 RUNNING 0", "* * * * * * * *", "played * 256"):
            self.assertEqual(self.faults(line), [], line)
        # no line of this report has four words, and none begins with the letter
        for line in ("* * * *", "1* a write 64 = 64 RUNNING 0"):
            self.assertEqual(self.faults(line), [1], line)

    def test_dots_are_the_rest_of_a_line_which_may_be_none(self):
        for line in ("2 a write 64 = EPIPE ...", "2 a write 64 = EPIPE late 128 1 XRUN 192 ...", "* a open ...", "...", "end ..."):
            self.assertEqual(self.faults(line), [], line)
        for line in ("2 a write 64 = EPIPE avail ...", "end end ..."):
            self.assertEqual(self.faults(line), [1], line)

    def test_comments_spaces_and_empty_lines_are_no_words(self):
        self.assertEqual(self.faults("# all\n\n \t\n  1\ta  write 64 = 64 RUNNING 0   # the first\r\nend\n#end\n"), [])
        self.assertEqual(self.faults("\n# one\nend #\nend\n"), [4])

    def test_lines_are_looked_for_in_order(self):
        self.assertEqual(self.faults("2 a write ...\n1 a write ...\nend"), [2])
        # what isn't there leaves the place for the next line
        self.assertEqual(self.faults("1 b write ...\n1 a write ...\n3 * ...\nend"), [1, 3])

    def test_a_line_counts_as_often_as_it_is_expected(self):
        self.assertEqual(self.faults("* a write 64 ...\n* a write 64 ...\nend"), [])
        self.assertEqual(self.faults("* a write 64 ...\n* a write 64 ...\n* a write 64 ...\nend"), [3])


class Command(Expecting):
    def test_tap(self):
        ran = self.run_on(samples.LATE, "0 a open = ok ...\n2 a write 64 = 64 RUNNING 192\n1 a write 64 ...\n0 a open = * * -\n")
        self.assertEqual((ran.returncode, ran.stderr), (1, ""))
        self.assertEqual(ran.stdout.splitlines(), [
            "TAP version 13",
            "1..4",
            "ok 1 - 0 a open = ok ...",
            "not ok 2 - 2 a write 64 = 64 RUNNING 192",
            "  ---",
            '  message: "no line of the report is so"',
            '  nearest: "1 a write 64 = 64 RUNNING 0"',
            f'  at: "{self.room.name}/it.expect:2"',
            "  ...",
            "ok 3 - 1 a write 64 ...",
            "not ok 4 - 0 a open = * * -",
            "  ---",
            '  message: "line 2 of the report is so, and isn\'t behind line 3, which was found last"',
            f'  at: "{self.room.name}/it.expect:4"',
            "  ...",
        ])

    def test_all_is_there(self):
        ran = self.run_on(samples.LATE, samples.LATE)
        self.assertEqual((ran.returncode, ran.stderr), (0, ""))
        self.assertEqual(ran.stdout.splitlines()[1:3], ["1..8", "ok 1 - dmixlab 1"])

    def test_junit(self):
        text = 'end\n1 <&"\' ...\n'
        ran = self.run_on(samples.LATE, text, "--form", "junit")
        self.assertEqual((ran.returncode, ran.stderr), (1, ""))
        root = xml.etree.ElementTree.fromstring(ran.stdout)
        self.assertEqual((root.tag, root.get("tests"), root.get("failures")), ("testsuites", "2", "1"))
        (suite,) = root
        self.assertEqual(suite.get("name"), f"{self.room.name}/it.report")
        cases = [(it.get("name"), it.get("line"), len(it)) for it in suite]
        self.assertEqual(cases, [("line 1: end", "1", 0), ("line 2: 1 <&\"' ...", "2", 1)])
        self.assertEqual(suite[1][0].get("message"), "no line of the report is so")

    def test_both_forms_at_once(self):
        ran = self.run_on(samples.LATE, "end\n", "--junit", "it.xml")
        self.assertEqual((ran.returncode, ran.stdout), (0, "TAP version 13\n1..1\nok 1 - end\n"))
        self.assertEqual(xml.etree.ElementTree.parse(f"{self.room.name}/it.xml").getroot().get("failures"), "0")

    def test_what_can_t_be_read_is_refused_by_a_line(self):
        for report, expect, words, line in [
            ("dmixlab 1\nx\n", "end\n", (), "it.report: line 2: 'x' isn't the number of a phase"),
            (samples.LATE, "", (), "it.expect: it expects nothing"),
            (samples.LATE, "# a\n\n", (), "it.expect: it expects nothing"),
            (samples.LATE, "end\n... end\n", (), "it.expect: line 2: ... is the last word of a line"),
            (samples.LATE, "\n\xe4\n", (), "it.expect: line 2: a word has a byte that isn't visible ASCII"),
            (samples.LATE, b"end\x00\n", (), "it.expect: line 1: a word has a byte that isn't visible ASCII"),
            (samples.LATE, "end\n", ("--form", "xml"), "invalid choice: 'xml'"),
            (samples.LATE, "end\n", ("more",), "unrecognized arguments: more"),
        ]:
            ran = self.run_on(report, expect, *words)
            self.assertEqual((ran.returncode, ran.stdout, len(ran.stderr.splitlines())), (2, "", 1), (expect, ran.stderr))
            self.assertIn(line, ran.stderr)
        for words in (("/nope", "it.expect"), ("it.report", "/nope"), ("-", "-"), ("it.report",)):
            ran = called(expect_report, *words, folder=self.room.name)
            self.assertEqual((ran.returncode, ran.stdout, len(ran.stderr.splitlines())), (2, "", 1), words)

    def test_an_answer_that_can_t_be_stored_has_a_status_of_its_own(self):
        for path in ("/dev/full", "/nope/it.xml"):
            ran = self.run_on(samples.LATE, "end\n", "--junit", path)
            self.assertEqual((ran.returncode, ran.stdout, len(ran.stderr.splitlines())), (5, "", 1), path)


if __name__ == "__main__":
    unittest.main()
