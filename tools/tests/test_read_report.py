"""What the reader takes as a report, and what it refuses, at which line."""
import json
import os
import sys
import tempfile
import unittest

HERE = os.path.dirname(os.path.abspath(__file__))
sys.path.insert(0, os.path.dirname(HERE))

import read_report
import samples
from calls import called

# as crates/lab_report reads and prints them
ANSWERS = [
    ("ok", {}),
    ("0", {"frames": 0}),
    ("18446744073709551615", {"frames": 2**64 - 1}),
    ("EBADFD", {"error": "EBADFD"}),
    ("EPIPE empty", {"error": "EPIPE", "why": "empty"}),
    ("EPIPE already", {"error": "EPIPE", "why": "already"}),
    ("EPIPE avail 256", {"error": "EPIPE", "why": "avail", "avail": 256}),
    ("EPIPE late 4096 7", {"error": "EPIPE", "why": "late", "frame": 4096, "channel": 7}),
    ("EPIPE overtaken 1 255", {"error": "EPIPE", "why": "overtaken", "frame": 1, "channel": 255}),
    ("EAGAIN", {"error": "EAGAIN"}),
    ("ENODEV", {"error": "ENODEV"}),
    ("EINVAL", {"error": "EINVAL"}),
    ("EIO", {"error": "EIO"}),
    ("EBUSY - 0", {"error": "EBUSY", "seen": 0}),
    ("EBUSY 128 0", {"error": "EBUSY", "until": 128, "seen": 0}),
    ("stopped", {"error": "stopped"}),
]

OPS = ["open", "close", "write 64", "read 5", "start", "sync", "avail", "delay", "drain", "drop", "prepare", "pause", "resume"]
OPS += ["rewind 32", "rewindable", "die 0"]

# a row that isn't one
ROWS = ["", "00 b open = ok OPEN -", "0 b open ok OPEN -", "0 b open = no OPEN -", "0 b open = 01 OPEN -"]
ROWS += ["0 b open = EPIPE late x 0 XRUN -", "0 b open = EPIPE late 0 256 XRUN -", "0 b open = EPIPE soon XRUN -"]
ROWS += ["0 b open = EBUSY x 0 OPEN -", "0 b open = EBUSY - - OPEN -", "0 b open = ok SUSPENDED -", "0 b open = ok OPEN x"]
ROWS += ["0 b open = ok OPEN 18446744073709551616", "0 b open = ok OPEN", "0 b open = ok OPEN ", "0 b open = ok OPEN - -"]
ROWS += ["0 b  open = ok OPEN -", "0 b open = ok OPEN -\r", "0 B open = ok OPEN -", "0 phase open = ok OPEN -", "1 card play x"]
ROWS += ["1 card open = ok OPEN -", "1 b play 7 = ok OPEN -", "1 b sync 7 = ok OPEN -", "1 b write = ok OPEN -", "end"]
ROWS += ["1 b write 4194305 = ok OPEN -", "\u00e4", "run r 0 +1", "segment a 0 0 0 256", "segment a 0 0 0", "segment a 0 - 0 0"]
ROWS += ["segment card 0 0 0 0", "segment a 0 0 0 0 0", "played 0 07", "played 0 7 end", "0 b open = ok OPEN \u0661"]


class Accepted(unittest.TestCase):
    def test_each_answer_is_read_in_its_parts(self):
        for text, fields in ANSWERS:
            report = read_report.parse(f"dmixlab 1\n1 a sync = {text} XRUN -\nplayed 0 0\nend\n")
            self.assertEqual(report.rows[0].answer, read_report.Answer(text, **fields))

    def test_each_op_and_state_is_read_and_printed_as_it_was(self):
        for op in OPS:
            for state in read_report.STATES:
                row = f"1 a {op} = ok {state} 7"
                self.assertEqual(str(read_report.parse(f"dmixlab 1\n{row}\nplayed 0 0\nend\n").rows[0]), row)

    def test_rows_segments_runs_and_the_card_of_a_report(self):
        report = read_report.parse(samples.OVERTAKEN)
        self.assertEqual([str(row) for row in report.rows], samples.OVERTAKEN.splitlines()[1:11])
        self.assertEqual(report.runs, (read_report.Run("r", 0, 64), read_report.Run("r", 384, 64)))
        self.assertEqual((report.first, report.frames), (0, 448))
        segments = read_report.parse(samples.LATE).segments
        self.assertEqual(segments, (read_report.Segment("a", 0, 64, 64, 1),))


class Refused(unittest.TestCase):
    def refusal(self, text):
        with self.assertRaises(read_report.NotAReport, msg=text) as caught:
            read_report.parse(text)
        return caught.exception.line

    def test_a_line_that_is_none(self):
        for row in ROWS:
            self.assertEqual(self.refusal(f"dmixlab 1\n{row}\nplayed 0 7\nend\n"), 2, row)

    def test_a_head_that_is_none(self):
        heads = ["dmixlab", "dmixlab 2\n", "dmixlab\n", "dmixlab  1\n", "dmixlab 1 \n", "dmixlab 1\r\n"]
        for text in [*heads, "dmixlab 1", "dmixlab 1\n"]:
            self.assertEqual(self.refusal(text), 1, text)
        self.assertEqual(self.refusal(""), 0)

    def test_lines_out_of_order(self):
        played, row = "played 0 7\n", "1 a sync = ok RUNNING 0\n"
        for text, line in [
            (row, 2),
            (played, 2),
            (played + played, 3),
            (played + "end", 3),
            (played + "end x\n", 3),
            (played + "end\n\n", 4),
            (played + "end\nx", 4),
            (row + "0 a sync = ok RUNNING 0\n", 3),
            ("segment a 0 0 0 1\n" + row, 3),
            ("run r 0 1\nsegment a 0 0 0 0\n", 3),
        ]:
            self.assertEqual(self.refusal("dmixlab 1\n" + text), line, text)


class Command(unittest.TestCase):
    def run_on(self, text, *words):
        with tempfile.NamedTemporaryFile("w", suffix=".report") as file:
            file.write(text)
            file.flush()
            return called(read_report, file.name, *words)

    def test_status_says_whether_a_row_matches(self):
        for words, status, lines in [
            (("--op", "open", "--not", "ok"), 0, 2),
            (("--op", "open", "--not", "ok", "--none"), 1, 2),
            (("--op", "write", "--not", "64"), 1, 0),
            (("--op", "write", "--not", "64", "--none"), 0, 0),
            (("--actor", "b", "--answer", "EBUSY"), 0, 1),
            ((), 0, 8),
        ]:
            ran = self.run_on(samples.REFUSED, *words)
            self.assertEqual((ran.returncode, len(ran.stdout.splitlines())), (status, lines), words)

    def test_status_2_and_the_line_where_it_is_no_report(self):
        ran = self.run_on("dmixlab 1\nx\n", "--none")
        self.assertEqual((ran.returncode, ran.stdout), (2, ""))
        self.assertIn("line 2: 'x' isn't the number of a phase", ran.stderr)

    def test_a_report_whose_lines_end_with_carriage_returns(self):
        ran = self.run_on(samples.EMPTY.replace("\n", "\r\n"))
        self.assertEqual((ran.returncode, ran.stdout), (2, ""))
        self.assertIn("line 1: it ends with a carriage return, which no report has; `tr -d '\\r' <IN >OUT` drops each one", ran.stderr)

    def test_quiet_prints_no_row_and_has_the_same_status(self):
        for words, status in (((), 0), (("--strict",), 3), (("--op", "open", "--all", "ok"), 1), (("--op", "open", "--not", "ok"), 0)):
            ran = self.run_on(samples.REFUSED, "--quiet", *words)
            self.assertEqual((ran.returncode, ran.stdout, ran.stderr), (status, "", ""), words)
        ran = self.run_on(samples.REFUSED, "--quiet", "--json")
        self.assertEqual((ran.returncode, ran.stdout), (2, ""))

    def check(self, text, *calls):
        """Each call's words, its status, and the numbers of the rows that it prints, from 0 on."""
        rows = text.splitlines()[1:]
        for words, status, numbers in calls:
            ran = self.run_on(text, *words)
            self.assertEqual((ran.returncode, ran.stdout.splitlines()), (status, [rows[it] for it in numbers]), (words, ran.stderr))

    def test_the_first_words_of_an_answer_are_compared_each_whole(self):
        self.check(
            samples.LATE,
            (("--answer", "EPIPE late"), 0, [3]),
            (("--answer", "EPIPE  late 128"), 0, [3]),
            (("--answer", "EPIPE late 128 1"), 0, [3]),
            (("--answer", "EPIPE late 12"), 1, []),
            (("--answer", "EPIPE avail"), 1, []),
            (("--answer", "6"), 1, []),
            (("--not", "EPIPE late", "--actor", "a"), 0, [0, 1]),
            (("--not", "EPIPE avail", "--op", "write"), 0, [1, 3]),
        )

    def test_rows_of_a_state_and_of_a_phase(self):
        self.check(
            samples.LATE,
            (("--state", "XRUN"), 0, [3]),
            (("--state", "DRAINING"), 1, []),
            (("--phase", "0"), 0, [0]),
            (("--phase", "2"), 0, [2, 3]),
            (("--phase", "2", "--state", "RUNNING"), 0, [2]),
            (("--phase", "7"), 1, []),
        )

    def test_at_least_so_many_rows(self):
        self.check(
            samples.LATE,
            (("--at-least", "4"), 0, [0, 1, 2, 3]),
            (("--at-least", "5"), 1, [0, 1, 2, 3]),
            (("--op", "write", "--at-least", "2"), 0, [1, 3]),
            (("--op", "close", "--at-least", "1"), 1, []),
        )

    def test_all_rows_have_an_answer_and_there_is_one(self):
        self.check(
            samples.REFUSED,
            (("--op", "open", "--all", "ok"), 1, [3, 4]),
            (("--op", "open", "--actor", "a", "--all", "ok"), 0, []),
            (("--op", "open", "--actor", "a", "--all", "ok", "--at-least", "2"), 1, []),
            (("--op", "drain", "--all", "ok"), 1, []),
            (("--op", "write", "--all", "64"), 0, []),
        )

    def test_a_report_that_opens_nothing_has_no_good_openings(self):
        text = "dmixlab 1\n1 a write 64 = EBADFD OPEN -\nplayed 0 0\nend\n"
        self.check(text, (("--op", "open", "--all", "ok"), 1, []), (("--op", "open", "--not", "ok", "--none"), 0, []))

    def test_strict_finds_any_error_that_isn_t_allowed(self):
        self.check(
            samples.REFUSED,
            (("--strict",), 3, [3, 4, 7]),
            (("--strict", "--allow", "EBUSY 128", "--allow", "EBADFD"), 3, [4]),
            (("--strict", "--allow", "EBUSY", "--allow", "EBADFD", "--allow", "EINVAL"), 0, range(8)),
            # an error of another row than those that match counts all the same
            (("--strict", "--allow", "EBUSY", "--allow", "EBADFD", "--op", "write"), 3, [4]),
            (("--strict", "--op", "close", "--allow", "EBUSY", "--allow", "EBADFD", "--allow", "EINVAL", "--at-least", "2"), 1, [2]),
            (("--strict", "--op", "drain", "--allow", "EBUSY", "--allow", "EBADFD", "--allow", "EINVAL"), 0, []),
            (("--strict", "--op", "drain", "--all", "ok", "--allow", "EBUSY", "--allow", "EBADFD", "--allow", "EINVAL"), 1, []),
        )
        self.check(samples.EMPTY, (("--strict",), 0, []), ((), 1, []))
        self.check(samples.GONE, (("--strict", "--allow", "ENODEV"), 3, [5]), (("--strict", "--allow", "stopped"), 3, [7]))

    def test_what_a_report_can_t_have_is_refused_with_what_it_can(self):
        for words, line in [
            (("--op", "opne", "--not", "ok", "--none"), "'opne' is no op (did you mean open?); there are: play, unplug, write, "),
            (("--op", "write 64"), "'write 64' is no op"),
            (("--op", ""), "'' is no op"),
            (("--actor", "d", "--answer", "EPIPE", "--none"), "'d' is no actor of this report; there are: card, a, b, c"),
            (("--actor", "A"), "'A' is no actor of this report"),
            (("--state", "XRUM", "--none"), "'XRUM' is no state (did you mean XRUN?); there are: OPEN, SETUP, "),
            (("--state", "running"), "'running' is no state"),
            (("--answer", "EPIP", "--none"), "'EPIP' is no number and no answer's first word (did you mean EPIPE?); there are: ok, "),
            (("--answer", "EPIPE lat"), "'lat' is no cause of EPIPE (did you mean late?); there are: empty, already, avail, late, overtaken"),
            (("--answer", "EPIPE late x"), "'EPIPE late x' begins no answer"),
            (("--answer", "ok ok"), "'ok ok' begins no answer"),
            (("--answer", "064"), "'064' begins no answer"),
            (("--not", "OK"), "'OK' is no number and no answer's first word"),
            (("--all", ""), "'' is no number and no answer's first word"),
            (("--strict", "--allow", "ok"), "'ok' is no error"),
            (("--allow", "EAGAIN"), "there is no --strict"),
            (("--none", "--all", "ok"), "--none asks for no row"),
            (("--none", "--at-least", "1"), "--none asks for no row"),
            (("--at-least", "0"), "'0' is no number from 1 on"),
            (("--phase", "-1"), "'-1' is no phase's number"),
            (("--phase", "x"), "'x' is no phase's number"),
            (("--stat", "XRUN"), "unrecognized arguments"),
        ]:
            ran = self.run_on(samples.REFUSED, *words)
            self.assertEqual((ran.returncode, ran.stdout, len(ran.stderr.splitlines())), (2, "", 1), words)
            self.assertIn(line, ran.stderr)

    def test_an_actor_is_known_by_a_row_a_segment_or_a_run(self):
        text = "dmixlab 1\n0 a open = ok PREPARED -\nsegment b 0 0 1 0\nrun r 0 1\nplayed 0 1\nend\n"
        for name, status in (("a", 0), ("b", 1), ("r", 1), ("card", 1), ("c", 2)):
            self.assertEqual(self.run_on(text, "--actor", name).returncode, status, name)

    def test_json_has_the_whole_report(self):
        said = json.loads(self.run_on(samples.LATE, "--json", "--answer", "EPIPE").stdout)
        self.assertEqual([(row["answer"]["why"], row["answer"]["frame"]) for row in said["rows"]], [("late", 128)])
        self.assertEqual(said["segments"], [{"client": "a", "source": 0, "card": 64, "whole": 64, "part": 1}])
        self.assertEqual((said["runs"], said["first"], said["frames"]), ([], 0, 256))


if __name__ == "__main__":
    unittest.main()
