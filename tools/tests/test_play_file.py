"""Scripts that play whole files: each line by hand for small ones, the limits, and what is refused. With a built program, named by the
variable DMIXLAB or built in the repository, each sample of the files is looked for in what is played."""
import os
import struct
import subprocess
import sys
import tempfile
import unittest
from types import SimpleNamespace

HERE = os.path.dirname(os.path.abspath(__file__))
TOOLS = os.path.dirname(HERE)
ROOT = os.path.dirname(TOOLS)
sys.path.insert(0, TOOLS)

import command
import corpus
import expected
import play_file
import read_report
from calls import called

PROGRAM = os.environ.get("DMIXLAB", f"{ROOT}/build/dmixlab")


def wav(frames, channels=1, rate=8000):
    """A WAV file whose samples rise."""
    return corpus.wav(channels, rate, struct.pack(f"<{frames * channels}h", *(it % 30000 for it in range(frames * channels))))


def sized(frames, channels=1):
    """A WAV file that has so many frames, by its sizes, without their bytes in the memory."""
    return play_file.Sound(f"{frames}.wav", 44 + 2 * channels * frames, channels, 48000, frames)


def asked(recover=(), **keys):
    return SimpleNamespace(**{"period": None, "ring": None, "turn": None, "recover": list(recover), **keys})


def body(text):
    """The lines of a script's phases, a text for each phase."""
    phases = text.split("phase\n")[1:]
    return [", ".join(line for line in it.splitlines() if line != "end") for it in phases]


class Files(unittest.TestCase):
    def setUp(self):
        self.room = tempfile.TemporaryDirectory()
        self.addCleanup(self.room.cleanup)

    def store(self, **files):
        for name, data in files.items():
            self.store_as(f"{name}.wav", data)

    def store_as(self, name, data):
        with open(f"{self.room.name}/{name}", "wb") as file:
            file.write(data)

    def run_on(self, *words):
        return called(play_file, *words, folder=self.room.name)

    def script(self, *words):
        ran = self.run_on(*words)
        self.assertEqual((ran.returncode, ran.stderr), (0, ""))
        return ran.stdout


SMALL = ("--period", "16", "--ring", "64")


class Scripts(Files):
    def test_one_file(self):
        # it begins at frame 16; three turns of 48, 48 and, up to the end of the 100 frames, 20
        self.store(a=wav(100))
        self.assertEqual(self.script("a.wav", *SMALL), """# 3 turns, in which the card plays 116 frames: 0.015 s
card channels 1 rate 8000 period 16 ring 64
client a a.wav
open a
phase
a write 48
end
phase
card play 48
end
phase
a write 48
end
phase
card play 48
end
phase
a write 4
a drain
end
phase
card play 20
end
phase
a drain
end
""")

    def test_a_file_that_one_turn_holds(self):
        self.store(a=wav(1))
        script = self.script("a.wav", *SMALL)
        self.assertEqual(body(script), ["a write 1, a drain", "card play 17", "a drain"])
        self.assertTrue(script.startswith("# 1 turn, in which the card plays 17 frames: 0.002 s\n"))

    def test_clients_end_when_their_own_files_do(self):
        # a ends at frame 116, b at 26 in turn 1, c at 76 in turn 2, d at 112, which is in the last turn
        self.store(a=wav(100), b=wav(10), c=wav(60, 2), d=wav(96))
        script = self.script("a.wav", "b.wav", "c.wav", "d.wav", *SMALL)
        self.assertEqual(script.splitlines()[1:4], ["card channels 2 rate 8000 period 16 ring 64", "client a a.wav", "client b b.wav"])
        self.assertEqual(body(script), [
            "a write 48, b write 10, b drain, c write 48, d write 48",
            "card play 48",
            "a write 48, b drain, c write 12, c drain, d write 48, d drain",
            "card play 48",
            "a write 4, a drain, c drain",
            "card play 20",
            "a drain, d drain",
        ])

    def test_a_turn_that_is_left_out_leads_to_a_prepare(self):
        # in turn 3 the card is at 96: a begins anew at 112, and its 48 frames end at 160
        self.store(a=wav(100))
        self.assertEqual(body(self.script("a.wav", *SMALL, "--recover", "2")), [
            "a write 48",
            "card play 48",
            "card play 48",
            "a write 48, a prepare, a write 48",
            "card play 48",
            "a write 4, a drain",
            "card play 20",
            "a drain",
        ])

    def test_one_client_leaves_out_turns_and_another_goes_on(self):
        self.store(a=wav(100), b=wav(100))
        self.assertEqual(body(self.script("a.wav", "b.wav", *SMALL, "--recover", "b:2", "--recover", "b:3")), [
            "a write 48, b write 48",
            "card play 48",
            "a write 48",
            "card play 48",
            "a write 4, a drain",
            "card play 48",
            # the card is at 144: b begins anew at 160, and a has ended at 116
            "a drain, b write 48, b prepare, b write 48",
            "card play 48",
            "b write 4, b drain",
            "card play 20",
            "b drain",
        ])

    def test_a_shorter_turn(self):
        self.store(a=wav(50))
        phases = body(self.script("a.wav", *SMALL, "--turn", "20"))
        self.assertEqual(phases[:4], ["a write 20", "card play 20", "a write 20", "card play 20"])
        self.assertEqual(phases[4:], ["a write 10, a drain", "card play 26", "a drain"])

    def test_period_and_ring_follow_from_one_another(self):
        for keys, wanted in [
            ({}, (1024, 8192, 7168)),
            ({"ring": 16384}, (2048, 16384, 14336)),
            ({"ring": 64}, (16, 64, 48)),
            ({"period": 64}, (64, 512, 448)),
            ({"period": 3000}, (3000, 15000, 12000)),
            ({"period": 8192}, (8192, 16384, 8192)),
            ({"period": 16, "ring": 16384, "turn": 100}, (16, 16384, 100)),
        ]:
            self.assertEqual(play_file.keys_of(asked(**keys)), wanted)

    def test_a_client_is_named_after_its_file(self):
        names = [("in/Mind the GAP.wav", "mind_the_gap"), ("7.wav", "c7"), ("-.wav", "c"), ("phase.wav", "phase2"), ("\u00e4b", "b")]
        for path, name in names:
            self.assertEqual(play_file.names_of([play_file.Sound(path, 0, 1, 8000, 1)]), [name])
        same = play_file.names_of([play_file.Sound(f"{'n' * 40}.wav", 0, 1, 8000, 1)] * 3)
        self.assertEqual(same, ["n" * 32, "n" * 31 + "2", "n" * 31 + "3"])


class Limits(unittest.TestCase):
    def lines(self, sounds, *recover, **keys):
        return play_file.script_of(sounds, asked(recover, **keys))

    def refusal(self, sounds, *recover, **keys):
        with self.assertRaises(command.Refused) as caught:
            self.lines(sounds, *recover, **keys)
        return str(caught.exception)

    def played(self, lines):
        return sum(int(line.split()[2]) for line in lines if line.startswith("card play "))

    def written(self, lines):
        return sum(int(line.split()[2]) for line in lines if " write " in line)

    def test_a_file_may_have_as_many_frames_as_the_card_plays(self):
        most = play_file.MOST_FRAMES
        for frames, lead in ((most - 1024, None), (most - 1023, "lead 1023"), (most - 1, "lead 1"), (most, "lead 0")):
            lines = self.lines([sized(frames)])
            self.assertEqual((self.played(lines), self.written(lines)), (most, frames))
            self.assertEqual(lines[2], f"client c{frames} {frames}.wav" + (f" {lead}" if lead else ""))
        # a period of silence comes before it, and none can
        why = self.refusal([sized(most + 1)])
        self.assertIn("more than the 4194304 frames", why)
        self.assertIn("`sox 4194305.wav OUT.wav trim 0 60` takes its first 60 seconds", why)

    def test_a_cut_that_is_told_fits(self):
        # at 192,000 Hz the card plays 21.8 seconds
        why = self.refusal([play_file.Sound("a b.wav", 44, 1, 192000, 5000000)])
        self.assertIn("`sox 'a b.wav' OUT.wav trim 0 20` takes its first 20 seconds", why)
        self.lines([play_file.Sound("a.wav", 44, 1, 192000, 20 * 192000)])

    def test_a_start_with_a_shorter_lead_fills_the_ring(self):
        lines = self.lines([sized(play_file.MOST_FRAMES)])
        self.assertEqual([it for it in lines if " write " in it][:2], ["c4194304 write 8192", "c4194304 write 7168"])

    def test_as_many_phases_as_a_script_has(self):
        # 2,047 turns of 48 frames are 4,094 phases, and one more has the last drain
        frames = 2047 * 48
        lines = self.lines([sized(frames)], period=16, ring=64)
        self.assertEqual((lines.count("phase"), self.written(lines)), (4095, frames))
        self.assertIn("more than the 4096 phases", self.refusal([sized(frames + 1)], period=16, ring=64))
        self.assertIn("more than the 4096 phases", self.refusal([sized(400000)], period=16, ring=64))

    def test_recoveries_are_within_the_limits_too(self):
        self.lines([sized(play_file.MOST_FRAMES - 7168 - 2048)], "9")
        self.assertIn("more than the 4194304 frames", self.refusal([sized(play_file.MOST_FRAMES)], "9"))

    def test_as_many_clients_as_a_script_has(self):
        play_file.check_sounds([sized(9)] * 64)
        with self.assertRaisesRegex(command.Refused, "65 files, and a script has at most 64 clients"):
            play_file.check_sounds([sized(9)] * 65)

    def test_as_many_bytes_as_a_run_reads(self):
        play_file.check_sounds([play_file.Sound("a", play_file.MOST_FILE, 1, 48000, 1)] * 4)
        with self.assertRaisesRegex(command.Refused, "at most 268435456; take fewer, or cut them: `sox a OUT.wav trim 0 60`"):
            play_file.check_sounds([play_file.Sound("a", play_file.MOST_FILE, 1, 48000, 1)] * 4 + [sized(1)])

    def test_turns_that_nobody_has_are_refused(self):
        for word, line in [
            ("5", "turn 5 can't be left out: nobody writes in it"),
            ("c100:5", "turn c100:5 can't be left out"),
            ("1", "'1' names no turn that can be left out: a number from 2 on"),
            ("x", "'x' names no turn"),
            ("", "'' names no turn"),
            ("c101:2", "'c101' is no client (did you mean c100?); there are: c100"),
        ]:
            self.assertIn(line, self.refusal([sized(100)], word, period=16, ring=64))

    def test_cards_that_there_are_none_of_are_refused(self):
        for keys, line in [
            ({"ring": 32}, "a ring has 64 to 16384 frames, and not 32"),
            ({"ring": 32768}, "a ring has 64 to 16384 frames, and not 32768"),
            ({"period": 8}, "64 frames and 8 don't fit"),
            ({"period": 8, "ring": 64}, "64 frames and 8 don't fit"),
            ({"period": 60, "ring": 256}, "256 frames and 60 don't fit"),
            ({"period": 256, "ring": 256}, "256 frames and 256 don't fit"),
            ({"ring": 100}, "100 frames and 16 don't fit"),
            ({"period": 9000}, "a ring has 64 to 16384 frames"),
            ({"turn": 8192}, "1024 to 7168 frames, and not 8192"),
            ({"turn": 1000}, "1024 to 7168 frames, and not 1000"),
        ]:
            self.assertIn(line, self.refusal([sized(100)], **keys))


def chunk(name, data):
    return name + struct.pack("<I", len(data)) + data + b"\0" * (len(data) % 2)


def riff(*chunks):
    return b"RIFF\0\0\0\0WAVE" + b"".join(chunks)


def fmt(tag=1, channels=1, rate=8000, bits=16, rest=b""):
    return chunk(b"fmt ", struct.pack("<HHIIHH", tag, channels, rate, 0, 0, bits) + rest)


DATA = chunk(b"data", b"\0" * 10)


class Sounds(Files):
    def frames(self, data):
        self.store(a=data)
        found = play_file.sound_in(f"{self.room.name}/a.wav")
        return found.channels, found.rate, found.frames

    def test_files_that_programs_write(self):
        extensible = fmt(65534, rest=struct.pack("<HHIH", 22, 16, 0, 1) + b"\0" * 14)
        for data, wanted in [
            (riff(fmt(), DATA), (1, 8000, 5)),
            (riff(fmt(channels=2), DATA), (2, 8000, 2)),
            (riff(extensible, DATA), (1, 8000, 5)),
            (riff(chunk(b"LIST", b"odd"), fmt(rest=b"\0\0"), chunk(b"fact", b"1234"), DATA, DATA), (1, 8000, 5)),
            # a size of 4294967295, and a file that ends within its samples: what is there
            (riff(fmt(), b"data\xff\xff\xff\xff" + b"\0" * 7), (1, 8000, 3)),
        ]:
            self.assertEqual(self.frames(data), wanted)

    def test_other_files_are_refused(self):
        for data, line in [
            (b"", "it is no WAV file"),
            (b"RIFF\0\0\0\0AVI ", "it is no WAV file"),
            (riff(), "it has no samples behind a format"),
            (riff(fmt()), "it has no samples behind a format"),
            (riff(DATA, fmt()), "it has no samples behind a format"),
            (riff(fmt(), chunk(b"data", b"\0")), "it has no frames"),
            (riff(fmt(), fmt(), DATA), "it has two formats"),
            (riff(chunk(b"fmt ", b"\0" * 14), DATA), "its format is cut short"),
            (riff(fmt(bits=24), DATA), "it isn't 16-bit PCM"),
            (riff(fmt(tag=3), DATA), "it isn't 16-bit PCM"),
            (riff(fmt(65534), DATA), "it isn't 16-bit PCM"),
            (riff(fmt(channels=9), DATA), "it has 9 channels"),
            (riff(fmt(channels=0), DATA), "it has 0 channels"),
            (riff(fmt(rate=3999), DATA), "its rate is 3999 Hz"),
            (riff(fmt(rate=192001), DATA), "its rate is 192001 Hz"),
        ]:
            with self.assertRaisesRegex(command.Refused, line):
                self.frames(data)

    def test_refusals_are_one_line_and_have_a_status(self):
        self.store(a=wav(9), b=wav(9, rate=9000))
        self.store_as("c d.wav", wav(9))
        self.store_as("e#.wav", wav(9))
        with open(f"{self.room.name}/long.wav", "wb") as file:
            file.write(wav(9))
            file.truncate(play_file.MOST_FILE + 1)
        for words, line in [
            ((), "required: FILE"),
            (("nope.wav",), "can't read nope.wav: No such file or directory"),
            (("/",), "can't read /: Is a directory"),
            (("/dev/null",), "/dev/null: it is no plain file"),
            (("a.wav", "b.wav"), "b.wav has 9000 Hz and a.wav 8000 Hz; a card has one rate"),
            (("c d.wav",), "c d.wav: a script can't name it"),
            (("e#.wav",), "e#.wav: a script can't name it"),
            (("n" * 256,), "a script can't name it"),
            (("long.wav",), "`sox long.wav OUT.wav trim 0 60` takes its first 60 seconds"),
            (("a.wav", "--ring", "x"), "'x' is no number from 1 on"),
            (("a.wav", "--period", "0"), "'0' is no number from 1 on"),
            (("a.wav", "--round", "5"), "unrecognized arguments: --round 5"),
        ]:
            ran = self.run_on(*words)
            self.assertEqual((ran.returncode, ran.stdout, len(ran.stderr.splitlines())), (2, "", 1), (words, ran.stderr))
            self.assertIn(line, ran.stderr)

    def test_a_script_with_too_many_bytes_is_refused(self):
        self.store(a=wav(2000 * 48))
        ran = self.run_on(*["a.wav"] * 64, *SMALL)
        self.assertEqual((ran.returncode, ran.stdout, len(ran.stderr.splitlines())), (2, "", 1))
        self.assertRegex(ran.stderr, r"the script would have \d+ bytes, and at most 1048576 are read")


@unittest.skipUnless(os.access(PROGRAM, os.X_OK), "there is no built program")
class Played(Files):
    """The program plays each sample of the files once, in the places that the script gives them."""

    def check(self, paths, *words, allow=(), root=ROOT):
        script = called(play_file, *paths, *words, folder=root)
        self.store_as("it.script", script.stdout.encode())
        call = [os.path.abspath(PROGRAM), "run", f"{self.room.name}/it.script", f"{self.room.name}/out"]
        ran = subprocess.run(call, cwd=root, capture_output=True, text=True)
        self.assertEqual((ran.returncode, ran.stderr), (0, ""))
        report = read_report.parse(ran.stdout)
        errors = {row.answer.text.split()[0] for row in report.rows if row.answer.error}
        self.assertEqual(errors, {"EAGAIN", *allow})
        for it in expected.clients_of(script.stdout).items():
            self.check_client(report, *it, root)
        played = expected.sound_at(f"{self.room.name}/out.wav")[2]
        self.assertEqual(played, expected.played_samples(script.stdout, report, root))
        return report, played

    def check_client(self, report, name, file, root):
        """All frames of a client's file are in its segments, one after the other, and it is in SETUP at last."""
        with_part = [it for it in report.segments if it.client == name and it.part]
        segments = [it for it in report.segments if it.client == name]
        channels, _, samples = expected.sound_at(os.path.join(root, file[0]))
        at = 0
        for it in segments:
            self.assertEqual(it.source, at, name)
            at += it.whole
        self.assertEqual((at, with_part), (len(samples) // channels, []), name)
        last = [row for row in report.rows if row.actor == name][-1]
        self.assertEqual((last.op, last.answer.text, last.state), ("drain", "ok", "SETUP"), name)
        for it in segments:
            self.assertLessEqual(it.card + it.whole, report.frames, name)

    def test_a_file_is_played_whole(self):
        report, played = self.check(["demo/high.wav"])
        (segment,) = report.segments
        samples = expected.sound_at(f"{ROOT}/demo/high.wav")[2]
        self.assertEqual(played[segment.card :], samples)

    def test_two_files_with_and_without_a_recovery(self):
        for words, allow in (((), ()), (("--recover", "2"), ("EPIPE",)), (("--recover", "low:3", "--ring", "1024"), ("EPIPE",))):
            self.check(["demo/high.wav", "demo/low.wav"], *words, allow=allow)

    def test_files_of_the_demo_by_their_rates(self):
        for names in ("announcer gap", "hall train", "busker whistle", "question"):
            paths = [f"demo/{name}.wav" for name in names.split()]
            self.check(paths)
            self.check(paths, "--ring", "16384")

    def test_the_longest_file_and_the_most_phases(self):
        self.store(a=wav(play_file.MOST_FRAMES), b=wav(2047 * 48))
        report, played = self.check(["a.wav"], root=self.room.name)
        self.assertEqual((report.frames, report.segments[0].card), (play_file.MOST_FRAMES, 0))
        report, played = self.check(["b.wav"], *SMALL, root=self.room.name)
        self.assertEqual(report.rows[-1].phase, 4095)

    def test_small_files_with_each_turn_and_recovery(self):
        self.store(a=wav(100), b=wav(10), c=wav(60, 2), d=wav(96), e=wav(500))
        files = ["a.wav", "b.wav", "c.wav", "d.wav", "e.wav"]
        for turn in ("16", "17", "33", "48"):
            self.check(files, *SMALL, "--turn", turn, root=self.room.name)
            self.check(files, *SMALL, "--turn", turn, "--recover", "2", "--recover", "e:4", allow=["EPIPE"], root=self.room.name)


if __name__ == "__main__":
    unittest.main()
