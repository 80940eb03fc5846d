"""The check of mixed runs accepts a right report, and refuses it after each of these changes."""
import copy
import os
import sys
import unittest

HERE = os.path.dirname(os.path.abspath(__file__))
sys.path.insert(0, os.path.dirname(HERE))

import check_mixed
from mixed_actors import Geometry, Outcome, Refusal

# How many frames the card plays, and the lines of the clients and of the reader. The clients take back frames, are late once, have an
# xrun once, start anew after each, and are stopped at last; so is the reader after an xrun. The card plays in phases of its own, so that
# there is one report.
PHASES = (
    ([], ["write 300"], ["start"]),
    ([100], [], []),
    ([], ["rewindable", "rewind 10"], ["read 64", "avail"]),
    ([200], [], []),
    ([], ["write 10", "sync", "prepare", "write 9", "avail", "delay"], ["read 500"]),
    ([128], [], []),
    ([], ["avail"], ["avail"]),
    ([300], [], []),
    ([], ["prepare", "write 100", "rewind 30", "rewindable"], ["avail", "prepare", "start"]),
    ([64], [], []),
    ([], ["die 22", "write 40", "delay"], ["die 6", "read 3"]),
    ([], ["avail"], ["avail"]),
)

# Rows that were worked out by hand: a client's frames begin at 64, and at position 0 the ring reaches to frame 256, so the others wait
# for room; at 300 the card has passed 256. The reader has read 300 frames by then, so at 728 there wait 428, which are more than the
# ring has. The client's last frames begin at 792: of its 22 steps one loads the position, and 20 place ten samples.
BY_HAND = (
    "1 c0 write 300 = 256 RUNNING 0",
    "3 c0 rewindable = 220 RUNNING 100",
    "3 r0 read 64 = 64 RUNNING 100",
    "3 r0 avail = 36 RUNNING 100",
    "5 c0 write 10 = EPIPE late 256 0 XRUN 300",
    "5 c0 sync = EPIPE already XRUN 300",
    "7 c0 avail = EPIPE avail 311 XRUN 428",
    "9 r0 avail = EPIPE avail 428 XRUN 728",
    "11 c0 write 40 = stopped RUNNING 792",
    "11 r0 read 3 = stopped RUNNING 792",
    "12 c0 avail = EBADFD OPEN -",
    "segment c0 0 64 192 0",
    "segment c0 255 792 75 0",
    "run r0 0 300",
)

# A line, and another one that can't be in its place: a late write that was done, one that was late elsewhere, and a position before one
# that was published.
CHANGES = (
    ("5 c0 write 10 = EPIPE late 256 0 XRUN 300", "5 c0 write 10 = 10 RUNNING 300"),
    ("5 c0 write 10 = EPIPE late 256 0 XRUN 300", "5 c0 write 10 = EPIPE late 299 1 XRUN 300"),
    ("5 c1 write 10 = EPIPE late 256 0 XRUN 300", "5 c1 write 10 = EPIPE late 256 0 XRUN 0"),
    ("3 r0 read 64 = 64 RUNNING 100", "3 r0 read 64 = 64 RUNNING 0"),
    ("11 c0 write 40 = stopped RUNNING 792", "11 c0 write 40 = 40 RUNNING 792"),
)

# A mixed phase in which the card plays 320 frames: the client starts at frame 128 and is late there, and the reader is overtaken in the
# eleventh of 100 frames.
LATE = "2 c0 write 64 = EPIPE late 128 0 XRUN 64"
OVERTAKEN = "2 r0 read 100 = EPIPE overtaken 10 1 XRUN 128"
MIXED = f"""dmixlab 1
0 c0 open = ok PREPARED -
0 r0 open = ok PREPARED -
1 r0 start = ok RUNNING 0
2 card play 320 = 320 RUNNING 320
{LATE}
{OVERTAKEN}
played 0 320
end
"""

# Rows that no order of the threads gives.
IMPOSSIBLE = (
    # a position that wasn't published, one that is out of the phase, and none
    (LATE, "2 c0 write 64 = EPIPE late 128 0 XRUN 60"),
    (LATE, "2 c0 write 64 = EPIPE late 448 0 XRUN 384"),
    (LATE, "2 c0 write 64 = EPIPE late 128 0 XRUN -"),
    # a sample that isn't of the call, and one that the card hasn't passed by the phase's end
    (LATE, "2 c0 write 64 = EPIPE late 127 1 XRUN 64"),
    (LATE, "2 c0 write 64 = EPIPE late 192 0 XRUN 64"),
    (LATE, "2 c0 write 64 = EPIPE late 128 2 XRUN 64"),
    (LATE, "2 c0 write 64 = EPIPE late 320 0 XRUN 256"),
    # a stop without a `die`, and frames that are in no segment
    (LATE, "2 c0 write 64 = stopped RUNNING 64"),
    (LATE, "2 c0 write 64 = 64 RUNNING 64"),
    # a frame that isn't of the call, one that wasn't stored over by the phase's end, and one that nobody asked for
    (OVERTAKEN, "2 r0 read 100 = EPIPE overtaken 100 0 XRUN 128"),
    (OVERTAKEN, "2 r0 read 100 = EPIPE overtaken 64 0 XRUN 128"),
    (OVERTAKEN, "2 r0 read 100 = EPIPE overtaken 10 2 XRUN 128"),
    (OVERTAKEN, "2 r0 read 100 = EPIPE overtaken 10 1 XRUN 0"),
    # an xrun where less than a ring waits, a read where a ring waits, and frames that are in no run
    (OVERTAKEN, "2 r0 read 100 = EPIPE avail 192 XRUN 192"),
    (OVERTAKEN, "2 r0 read 100 = 100 RUNNING 256"),
    (OVERTAKEN, "2 r0 read 100 = 100 RUNNING 128"),
)


def plan_of():
    """Two clients and a reader that take turns with the card."""
    plan = check_mixed.Plan(Geometry(64, 256), 2, 1)
    for phase in PHASES:
        plan.add_phase(*phase)
    return plan


def row_of(checked, planned):
    """The row of a plan in which the card is in phases of its own: its position is the one seen, and of the ways in which a call can
    end one is right."""
    if planned.actor is None:
        return planned.begins
    actors = checked.clients | checked.readers
    before, seen = actors[planned.actor], planned.call.before
    late = [(256, 0)]
    for outcome in (Outcome(seen=seen), Outcome(is_stop=True, seen=seen), *(Outcome(place=it, seen=seen) for it in late)):
        actor = copy.deepcopy(before)
        try:
            answer = actor.answer(planned.call, outcome)
        except Refusal:
            continue
        held = checked.clients if planned.actor in checked.clients else checked.readers
        held[planned.actor] = actor
        return f"{planned.begins}{answer} {actor.state} {'-' if actor.seen is None else actor.seen}"
    raise AssertionError(planned.begins)


def report_of(plan, clients, captured):
    """The one report of a plan, and the files beside it."""
    checked = check_mixed.Check(plan, clients, captured)
    lines = ["dmixlab 1", *(row_of(checked, planned) for planned in plan.rows), *checked.tail()]
    files = {"o.wav": check_mixed.wav_of(2, checked.played())}
    files |= {f"o.{name}.wav": check_mixed.wav_of(2, checked.recorded(reader)) for name, reader in checked.readers.items()}
    return lines, files


def changed_word(word):
    """Another word: a number is one more, a client is the other one, and each other word is longer."""
    if word.isdigit():
        return str(int(word) + 1)
    return {"c0": "c1", "c1": "c0"}.get(word, word + "x")


def with_other_word(line, place):
    words = line.split(" ")
    return " ".join([*words[:place], changed_word(words[place]), *words[place + 1 :]])


class Changed(unittest.TestCase):
    @classmethod
    def setUpClass(cls):
        cls.plan = plan_of()
        cls.clients, cls.captured = check_mixed.sounds_of(cls.plan)
        cls.lines, cls.files = report_of(cls.plan, cls.clients, cls.captured)

    def check(self, lines, files):
        return check_mixed.check(self.plan, self.clients, self.captured, "\n".join(lines) + "\n", files)

    def assert_refused(self, lines, files=None):
        with self.assertRaises(Refusal, msg="\n".join(lines)):
            self.check(lines, files or self.files)

    def test_a_right_report_is_accepted(self):
        self.assertEqual(self.check(self.lines, self.files), 0)

    def test_rows_are_as_they_were_worked_out_by_hand(self):
        for row in BY_HAND:
            self.assertIn(row, self.lines)

    def test_a_line_that_is_missing_or_there_twice_is_refused(self):
        for place in range(len(self.lines)):
            self.assert_refused(self.lines[:place] + self.lines[place + 1 :])
            self.assert_refused(self.lines[: place + 1] + self.lines[place:])

    def test_another_word_is_refused(self):
        for place, line in enumerate(self.lines):
            for word in range(len(line.split(" "))):
                self.assert_refused([*self.lines[:place], with_other_word(line, word), *self.lines[place + 1 :]])

    def test_a_row_that_cannot_be_is_refused(self):
        for line, other in CHANGES:
            self.assertIn(line, self.lines)
            self.assert_refused([other if it == line else it for it in self.lines])

    def test_another_byte_of_a_file_is_refused(self):
        for name, data in self.files.items():
            other = bytes([*data[:100], data[100] ^ 1, *data[101:]])
            self.assert_refused(self.lines, {**self.files, name: other})


class Impossible(unittest.TestCase):
    def test_a_row_that_no_order_of_the_threads_gives_is_refused(self):
        plan = check_mixed.Plan(Geometry(64, 256), 1, 1)
        plan.add_phase([], [], ["start"])
        plan.add_phase([320], ["write 64"], ["read 100"])
        clients, captured = check_mixed.sounds_of(plan)
        files = {"o.wav": check_mixed.wav_of(2, [0] * 640), "o.r0.wav": check_mixed.wav_of(2, [])}
        self.assertEqual(check_mixed.check(plan, clients, captured, MIXED, files), 2)
        for line, other in IMPOSSIBLE:
            with self.assertRaises(Refusal, msg=other):
                check_mixed.check(plan, clients, captured, MIXED.replace(line, other), files)


if __name__ == "__main__":
    unittest.main()
