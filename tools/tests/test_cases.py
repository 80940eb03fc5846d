"""The reader of cases, what a run of them finds with a stand-in for the program, skeletons and completed reports."""
import contextlib
import glob
import io
import os
import struct
import sys
import tempfile
import unittest

HERE = os.path.dirname(os.path.abspath(__file__))
ROOT = os.path.dirname(os.path.dirname(HERE))
sys.path.insert(0, os.path.dirname(HERE))

import cases
import command
import corpus

SCRIPT = "card channels 1 rate 48000 period 64 ring 256\nclient a a.wav\nopen a\nphase\na write 64\nend\nphase\ncard play 128\nend\n"
REPORT = "dmixlab 1\n0 a open = ok PREPARED -\n1 a write 64 = 64 RUNNING 0\n2 card play 128 = 128 RUNNING 128\nsegment a 0 64 64 0\nplayed 0 128\nend\n"


def read(path):
    """The text of a file."""
    with open(path, encoding="utf-8") as file:
        return file.read()


def indented(text):
    return "".join(f"  {line}\n" for line in text.splitlines())


ONE = f"""# One client.
case one write
call run s o
file s
{indented(SCRIPT)}file a.wav
~ 1 48000 64*5
out
{indented(REPORT)}"""


def with_file(text, ask):
    """What is asked of a file of cases with this text."""
    with tempfile.TemporaryDirectory() as room:
        path = f"{room}/it.cases"
        with open(path, "w") as file:
            file.write(text)
        return ask(path, room)


def called(*words):
    """The status of a call of the tool, and what it prints."""
    out, errors = io.StringIO(), io.StringIO()
    with contextlib.redirect_stdout(out), contextlib.redirect_stderr(errors):
        status = command.status_of(lambda: cases.main(list(words)))
    return status, out.getvalue(), errors.getvalue()


def ran(text, body, *words):
    """What a run of these cases gives by a program of this body."""

    def run(path, room):
        with open(f"{room}/program", "w") as file:
            file.write(f"#!/bin/sh\n{body}\n")
        os.chmod(f"{room}/program", 0o755)
        return called("run", f"{room}/program", path, *words)

    return with_file(text, run)


def no_program(path, program):
    """What a run of these cases gives by a file that may be run and is no program."""
    with open(program, "wb") as file:
        file.write(b"\x7fELF")
    os.chmod(program, 0o755)
    return called("run", program, path)


class Contents(unittest.TestCase):
    def content(self, line, shared=None):
        return corpus.content(line, shared or {})

    def test_a_text_ends_in_a_line_feed(self):
        self.assertEqual(self.content("  a b"), b"a b\n")

    def test_escapes_stand_for_bytes(self):
        self.assertEqual(self.content(r"|a\nb\b\x00\xff"), b"a\nb\\\x00\xff")

    def test_a_repeated_text_counts(self):
        self.assertEqual(self.content(r"* 3 7 \# \+\n"), b"7 8\n8 9\n9 10\n")

    def test_samples_are_runs(self):
        self.assertEqual(self.content("= 2*5 -1 3*1/2"), struct.pack("<6h", 5, 5, -1, 1, 3, 5))

    def test_a_wav_file_is_canonical(self):
        data = self.content("~ 2 44100 1 -1")
        self.assertEqual((len(data), data[:4], data[40:44], data[44:]), (48, b"RIFF", struct.pack("<I", 4), struct.pack("<2h", 1, -1)))
        self.assertEqual(struct.unpack_from("<HHIIHH", data, 20), (1, 2, 44100, 176400, 4, 16))

    def test_shared_bytes_are_put_by_name(self):
        self.assertEqual(self.content("< it", {"it": b"xyz"}), b"xyz")

    def test_runs_of_samples_read_back(self):
        for samples in ((), (5,), (5, 5, 5), (1, 2, 3, 9, 9), (-32768, 32767, 7), (1, 2), tuple(range(100)) + (0,) * 50):
            data = struct.pack(f"<{len(samples)}h", *samples)
            self.assertEqual(corpus.samples(corpus.runs_of(data)), data)


class Reading(unittest.TestCase):
    def test_a_further_case_has_words_and_files_but_not_what_is_left(self):
        text = ONE + "leaves o.wav\n~ 1 48000\n\nalso with status 5\nstatus 5\n"
        first, second = with_file(text, lambda path, _: corpus.read(path).cases)
        self.assertEqual((second.words, second.files), (first.words, first.files))
        self.assertEqual((second.status, second.out, second.leaves), (5, b"", {}))

    def test_a_case_after_another_finds_what_that_one_leaves(self):
        text = ONE + "leaves o.wav\n|x\nleaves s\n|y\n\nthen once more\ncall conf s hw\n"
        second = with_file(text, lambda path, _: corpus.read(path).cases)[1]
        self.assertEqual((second.words[0], second.files["s"], second.files["o.wav"]), (b"conf", b"y", b"x"))

    def test_a_line_that_is_not_known_is_refused_with_its_number(self):
        with self.assertRaisesRegex(corpus.NotACorpus, "line 2: sample isn't known"):
            with_file("case a\nsample 5\n", lambda path, _: corpus.read(path))

    def test_a_line_that_cannot_be_read_is_told_in_plain_words(self):
        runs, numbers = "is no run of samples, as 5, 64*5 or 64*5/1", "isn't a number of channels, which is 0 to 65535"
        for lines, number, why in (
            ("file a\n~ 1 48000 x", 3, f"'x' {runs}"),
            ("file a\n~ 1 48000 3*", 3, f"'3*' {runs}"),
            ("file a\n~ 1 x 3", 3, "'x' isn't a rate, which is 0 to 4294967295"),
            ("file a\n~ x 48000 3", 3, f"'x' {numbers}"),
            ("file a\n~ 1", 3, "CHANNELS RATE must be here, and not '1'"),
            ("file a\n* 2 x", 3, "COUNT FIRST TEXT.. must be here, and not '2 x'"),
            ("file a\n* x 2 y", 3, "'x' isn't a count"),
            ("file a\n|\\\\q", 3, r"\\q is no escape; there are: \\n, \\b, \\xHH"),
            ("file a\n|\\\\x0", 3, r"\\x0 is no escape"),
            ("file a\n< no", 3, "no line `bytes no` is above"),
            ("file a\n= 70000", 3, "'70000' has a number that isn't one of 16 bits"),
            ("file a\n= 999999999*5", 3, "'999999999*5' has more than 67108864 samples"),
            ("file ../a", 2, "a name within the case's folder must follow file, and not '../a'"),
            ("leaves", 2, "a name within the case's folder must follow leaves, and not ''"),
            ("status x", 2, "'x' isn't a status, which is 0 to 255"),
            ("puts-fail x", 2, "'x' isn't the number of a call"),
            ("mixed o.wav 1", 2, "NAME CHANNELS RATE must be here, and not 'o.wav 1'"),
            ("  text", 2, "content must stand behind a line that takes it, as file NAME, out or leaves NAME"),
            ("also", 2, "a name must follow also"),
            ("also a", 2, "the case of line 1 has this name"),
            ("mixed o.wav 1 8000\nthen b", 3, "then can't follow a case with mixed or recorded"),
        ):
            with self.subTest(lines):
                with self.assertRaises(corpus.NotACorpus) as found:
                    with_file(f"case a\n{lines}\n".replace("\\\\", "\\"), lambda path, _: corpus.read(path))
                self.assertIn(f"it.cases: line {number}: {why}".replace("\\\\", "\\"), str(found.exception))
        for word in ("also", "then", "file", "status"):
            with self.assertRaisesRegex(corpus.NotACorpus, f"line 1: {word} before any case"):
                with_file(f"{word} x\n", lambda path, _: corpus.read(path))

    def test_content_before_any_section_is_refused(self):
        with self.assertRaises(corpus.NotACorpus):
            with_file("case a\n  text\n", lambda path, _: corpus.read(path))

    def test_the_corpus_is_read(self):
        for path in glob.glob(f"{ROOT}/crates/sessions/data/*.cases"):
            found = corpus.read(path).cases
            self.assertTrue(found, path)
            self.assertEqual(len({it.name for it in found}), len(found), path)

    def test_each_file_is_run_in_the_gate_counted_and_described(self):
        crate = f"{ROOT}/crates/sessions"
        names = read(f"{crate}/args").split()
        self.assertEqual(sorted(names), sorted(os.listdir(f"{crate}/data")))
        counts = [len(corpus.read(f"{crate}/data/{name}").cases) for name in names[:-1]]
        lines = [f"{name}: {count} passed, 0 failed" for name, count in zip(names, counts)]
        printed = read(f"{crate}/stdout").splitlines()
        self.assertEqual((printed[:len(lines)], printed[-1]), (lines, f"sessions: {sum(counts)} passed, 0 failed"))
        rows = read(f"{ROOT}/docs/CASES.md").split("## The files of the corpus")[1].split("\n## ")[0]
        self.assertEqual([name for name in names if f"`{name[:-len('.cases')]}`" not in rows], [])


def matches(pattern, lines):
    """Whether lines are those of a pattern."""
    return cases.mismatch(pattern, lines) is None


class Patterns(unittest.TestCase):
    def test_the_place_of_a_mismatch_is_told(self):
        for pattern, lines, place in (
            (["a", "b"], ["a", "c"], (2, "b", "c")),
            (["a", "b"], ["a"], (2, "b", None)),
            (["a"], ["a", "b"], (2, None, "b")),
            (["a", "...", "z"], ["a", "b", "c"], (2, "z", "b")),
            (["...", "b ?"], ["a"] * 5000 + ["b"], (1, "b ?", "a")),
        ):
            self.assertEqual(cases.mismatch(pattern, lines), place)

    def test_a_question_mark_is_any_word(self):
        self.assertTrue(matches(["1 a write 64 = 64 RUNNING ?"], ["1 a write 64 = 64 RUNNING 64"]))
        self.assertFalse(matches(["1 a write 64 = 64 RUNNING ?"], ["1 a write 64 = 64 XRUN 64"]))
        self.assertFalse(matches(["a ?"], ["a b c"]))

    def test_dots_are_any_number_of_lines(self):
        for lines in (["a", "z"], ["a", "b", "z"], ["a", "z", "z"]):
            self.assertTrue(matches(["a", "...", "z"], lines))
        self.assertFalse(matches(["a", "...", "z"], ["a", "b"]))

    def test_a_line_more_or_less_is_another_report(self):
        self.assertFalse(matches(["a"], ["a", "a"]))
        self.assertFalse(matches(["a", "a"], ["a"]))


MIXED = ONE.replace("out\n", "any-order\n").replace("= 64 RUNNING 0", "= 64 RUNNING ?") + "mixed o.wav 1 48000\n"
PLAYS = f"printf '{REPORT}'; printf 'RIFF\\044\\001\\000\\000' >o.wav; tail -c +9 a.wav | head -c 32 >>o.wav; printf '\\000\\001\\000\\000' >>o.wav;"
SILENCE, SOUND = "head -c 128 /dev/zero >>o.wav;", "tail -c +45 a.wav >>o.wav"


class Running(unittest.TestCase):
    def test_a_case_that_is_as_it_should_be_passes(self):
        status, out, _ = ran("case it\ncall a 'b' \\x41\nout\n  a 'b' A\n", 'echo "$@"')
        self.assertEqual((status, out), (0, "it.cases: 1 passed, 0 failed, 0 skipped\n"))

    def test_each_difference_is_said(self):
        status, out, _ = ran("case it\ncall x\nfile kept\n|a\nleaves new\n|b\nerrors\n  no\n", "echo a; echo c >kept; echo >more; exit 3")
        self.assertEqual(status, 1)
        lines = ("out: line 1, 2 bytes (wanted 0)", "errors: line 1, 0 bytes (wanted 3)", "kept: byte 0 is 99 (wanted 97), 2 bytes (wanted 1)")
        for text in ("status 3 (wanted 0)", *lines, "new wasn't made", "more was made"):
            self.assertIn(f"FAIL it.cases:1 it: {text}", out)
        self.assertIn("    wanted: (nothing)\n    found:  a\n", out)
        self.assertIn("    wanted: no\n    found:  (nothing)\n", out)

    def test_a_row_that_differs_is_shown_with_its_line(self):
        text = ONE + "leaves o.wav\n~ 1 48000 64*0 64*5\n"
        out = ran(text, (PLAYS + SILENCE + SOUND).replace("write 64 = 64", "write 64 = 63"))[1]
        rows = "    wanted: 1 a write 64 = 64 RUNNING 0\n    found:  1 a write 64 = 63 RUNNING 0\n"
        self.assertIn("FAIL it.cases:2 one write: out: line 3, 134 bytes (wanted 134)\n" + rows, out)

    def test_a_line_without_its_line_feed_differs(self):
        self.assertIn("    wanted: a\n    found:  a (no line feed)\n", ran("case it\ncall x\nout\n  a\n", "printf a")[1])

    def test_files_that_differ_are_told_by_byte_or_sample(self):
        one, other = corpus.sound("1 48000 3*5"), corpus.sound("1 48000 5 5 6")
        self.assertEqual(cases.byte_fault(one, other), "sample 2 is 6 (wanted 5), 50 bytes (wanted 50)")
        self.assertEqual(cases.byte_fault(one, corpus.sound("1 44100 3*5")), "byte 24 is 68 (wanted 128), 50 bytes (wanted 50)")
        shorter = cases.byte_fault(one, corpus.sound("1 48000 5"))
        self.assertEqual(shorter, "46 bytes (wanted 50); the shorter one is the beginning of the other, but for the sizes in a head")

    def test_a_case_that_needs_faults_is_skipped(self):
        for fault in ("shelf-fails 1", "puts-fail 2", "errors-fail 1"):
            self.assertEqual(ran(f"case it\ncall x\n{fault}\nstatus 5\n", "exit 1")[:2], (0, "it.cases: 0 passed, 0 failed, 1 skipped\n"))

    def test_cases_that_must_fail_do(self):
        text = "must-fail\ncase one\ncall x\nstatus 3\n\ncase two\nnonsense\n"
        self.assertEqual(ran(text, "exit 0")[:2], (0, "it.cases: 2 failed, as they must, 0 passed, 0 skipped\n"))
        status, out, _ = ran(text, "exit 3")
        self.assertEqual(status, 1)
        self.assertIn("FAIL it.cases:2 one: it passed, and must fail\n", out)

    def test_cases_are_picked_by_their_names(self):
        self.assertEqual(ran("case one\ncall x\n\ncase two\ncall y\n", "exit 0", "=tw")[1], "it.cases: 1 passed, 0 failed, 0 skipped\n")

    def test_a_mixed_file_follows_from_the_report_that_was_found(self):
        self.assertEqual(ran(MIXED, PLAYS + SILENCE + SOUND)[:2], (0, "it.cases: 1 passed, 0 failed, 0 skipped\n"))
        self.assertIn("o.wav: sample 0 is 5 (wanted 0), 300 bytes (wanted 300)", ran(MIXED, PLAYS + SOUND + ";" + SILENCE)[1])

    def test_another_report_than_the_pattern_is_found(self):
        out = ran(MIXED, (PLAYS + SILENCE + SOUND).replace("64 RUNNING 0", "63 RUNNING 0"))[1]
        rows = "    wanted: 1 a write 64 = 64 RUNNING ?\n    found:  1 a write 64 = 63 RUNNING 0\n"
        self.assertIn("FAIL it.cases:2 one write: out doesn't have the lines of any-order: line 3\n" + rows, out)

    def test_a_plug_fails_its_case_with_a_reason_and_no_other_case(self):
        plug = MIXED.replace("a a.wav\n", "a a.wav plug linear\n", 1)
        status, out, _ = ran(plug + "\ncase two\ncall x\n", f"case $1 in run) {PLAYS}{SILENCE}{SOUND};; esac")
        self.assertEqual((status, out.splitlines()[-1]), (1, "it.cases: 1 passed, 1 failed, 0 skipped"))
        why = "what o.wav must have can't be worked out: a has plug, and what its file is converted to isn't worked out"
        self.assertIn(f"FAIL it.cases:2 one write: {why}\n", out)

    def test_a_case_whose_sound_cannot_be_worked_out_fails_with_a_reason(self):
        for old, new, why in (
            ("~ 1 48000 64*5", "~ 1 48000 63*5", "a segment has the frames of a up to 64, and its file has 63"),
            ("~ 1 48000 64*5", "~ 2 48000 128*5", "a plays in 2 channels, which aren't different ones of the card's 1"),
            ("~ 1 48000 64*5", "~ 1 44100 64*5", "the file of a has 44100 Hz and the card 48000 Hz, so no segment can have its frames"),
            ("~ 1 48000 64*5", "|no sound of 44 bytes or more, as it is a text", "a.wav is no WAV file of 16-bit PCM"),
            ("file a.wav", "file b.wav", "can't read a.wav: No such file or directory"),
            ("  card ch", "  cart ch", "line 1 of the script is refused as Word: the first line with words begins with `card`"),
            ("call run s o", "call run s", "its call isn't `run SCRIPT OUT` with a script that is a file of the case"),
        ):
            out = ran(MIXED.replace(old, new), PLAYS + SILENCE + SOUND)[1]
            self.assertIn(f"what o.wav must have can't be worked out: {why}\n", out)

    def test_a_file_that_is_no_corpus_has_a_status_of_its_own(self):
        status, out, errors = ran("nothing\n", "exit 0")
        self.assertEqual((status, out), (2, ""))
        self.assertIn("it.cases: line 1", errors)

    def test_what_isn_t_there_is_refused_by_a_line(self):
        for words, line in [
            (("walk", "x"), "'walk' is no call; there are: run, unpack, skeleton, complete"),
            ((), "'' is no call"),
            (("run", "true"), "run has other words"),
            (("complete", "a", "b"), "complete has other words"),
            (("run", "/nope", "x.cases"), "there is no program /nope"),
            (("run", "/", "x.cases"), "there is no program /"),
            (("run", "/etc/passwd", "x.cases"), "/etc/passwd can't be run as a program"),
            (("run", "/bin/true", "/nope.cases"), "can't read /nope.cases: No such file or directory"),
            (("run", "/bin/true", "=a"), "no file of cases is given"),
            (("complete", "/bin/true"), "a file isn't text"),
            (("skeleton", "a", "/nope"), "can't read /nope"),
            (("skeleton", "a", f"{ROOT}/dmixlab"), "/dmixlab: line 3 of the script is refused as Word: the first line with words"),
            (("skeleton", "a", f"{ROOT}/demo/station.script"), "station.script names "),
            (("skeleton", "a\nb", f"{ROOT}/demo/station.script"), r"'a\nb' is no name of a case"),
        ]:
            status, out, errors = called(*words)
            self.assertEqual((status, len(errors.splitlines())), (2, 1), words)
            self.assertIn(line, errors)

    def test_a_text_that_no_name_has_is_refused(self):
        status, out, errors = ran("case one\ncall x\n", "exit 0", "=two")
        self.assertEqual((status, out), (2, ""))
        self.assertIn("no case has two in its name", errors)

    def test_a_program_that_can_t_be_run_is_refused(self):
        status, _, errors = with_file("case one\ncall x\n", lambda path, room: no_program(path, f"{room}/program"))
        self.assertEqual(status, 2)
        self.assertRegex(errors, "can't run /.*/program: Exec format error")

    def test_a_folder_that_can_t_be_written_has_a_status_of_its_own(self):
        status, _, errors = with_file("case one\ncall x\n", lambda path, _: called("unpack", "/dev/null", path))
        self.assertEqual((status, len(errors.splitlines())), (5, 1))
        self.assertIn("can't write /dev/null", errors)


class Writing(unittest.TestCase):
    def test_a_skeleton_has_each_row_up_to_its_answer(self):
        def ask(path, room):
            for name, data in (("s", SCRIPT.encode()), ("a.wav", corpus.sound("1 48000 64*5"))):
                cases.store(room, name, data)
            return called("skeleton", "one write", f"{room}/s", f"{room}/a.wav")

        status, out, _ = with_file("", ask)
        self.assertEqual(status, 0)
        rows = "out\n  dmixlab 1\n  0 a open = ?\n  1 a write 64 = ?\n  2 card play 128 = ?\n"
        self.assertIn(rows, out)
        self.assertIn("~ 1 48000 64*5\n", out)

    def test_the_sounds_of_a_report_are_added_once(self):
        status, out, _ = with_file(ONE, lambda path, _: called("complete", path))
        self.assertEqual((status, out), (0, ONE + "leaves o.wav\n~ 1 48000 64*0 64*5\n"))
        self.assertEqual(with_file(out, lambda path, _: called("complete", path))[1], out)

    def test_a_skeleton_has_the_bytes_of_its_files(self):
        head = struct.pack("<HHIIHH", 1, 1, 48000, 96000, 2, 16)
        sounds = {
            "canonical.wav": corpus.sound("2 44100 1 2"),
            "deep.wav": b"RIFF\x36\0\0\0WAVEfmt \x10\0\0\0" + struct.pack("<HHIIHH", 1, 2, 44100, 264600, 6, 24) + b"data\x12\0\0\0" + bytes(range(18)),
            "odd.wav": b"RIFF\x29\0\0\0WAVEfmt \x10\0\0\0" + struct.pack("<HHIIHH", 1, 1, 48000, 48000, 1, 8) + b"data\x05\0\0\0hello",
            "list.wav": b"RIFF\x2c\0\0\0WAVELIST\4\0\0\0abcdfmt \x10\0\0\0" + head + b"data\2\0\0\0\5\0",
            "open.wav": b"RIFF\xff\xff\xff\xffWAVEfmt \x10\0\0\0" + head + b"data\xff\xff\xff\xff\5\0",
            "cut.wav": corpus.sound("1 48000 64*5")[:40],
            "text.wav": b"no\nsound\\",
            "empty.wav": b"",
        }
        script = "card lap 2 ring 256 period 64\r\n" + "".join(f"client c{k} {it}\n" for k, it in enumerate(sounds)) + "# \xff\x0c\nphase\nend"

        def ask(path, room):
            cases.store_all(room, {"s": script.encode("latin-1"), **sounds})
            status, out, _ = called("skeleton", "all", f"{room}/s", *(f"{room}/{it}" for it in sounds))
            cases.store(room, "out.cases", out.encode())
            return status, out, corpus.read(f"{room}/out.cases").cases[0]

        status, out, case = with_file("", ask)
        self.assertEqual((status, case.files), (0, {"s": script.encode("latin-1"), **sounds}))
        self.assertIn("\n  played 512 ?\n", out)

    def test_a_sound_that_a_script_names_must_be_given(self):
        def ask(path, room):
            cases.store_all(room, {"s": (SCRIPT.replace("256\n", "256 capture c.wav\n")).encode(), "a.wav": corpus.sound("1 48000 64*5")})
            return called("skeleton", "one", f"{room}/s", f"{room}/a.wav")

        status, out, errors = with_file("", ask)
        self.assertEqual((status, out), (2, ""))
        self.assertIn("s names c.wav, and no such file is given behind it", errors)

    def test_a_file_that_a_case_cannot_have_is_refused(self):
        def ask(file):
            def skeleton(path, room):
                cases.store_all(room, {"t": f"card\nclient a {file}\n".format(room).encode(), "a.wav": b"", "s": b""})
                return called("skeleton", "one", f"{room}/t", f"{room}/{file.split('/')[-1]}")

            return with_file("", skeleton)

        for file, why in (("{}/a.wav", "its name must be one within a folder"), ("s", "the file s of"), ("b.wav", "can't read ")):
            status, out, errors = ask(file)
            self.assertEqual((status, out), (2, ""), file)
            self.assertIn(why, errors)
        other = with_file("", lambda path, room: called("skeleton", "one", f"{ROOT}/demo/station.script", path))
        self.assertEqual(other[:2], (2, ""))
        self.assertIn("station.script doesn't name ", other[2])

    def test_a_case_that_cannot_be_completed_is_told_by_its_line(self):
        for old, new, why in (
            ("a open = ok PREPARED", "a open = ? PREPARED", "line 18: the case 'one write': each ? of a skeleton is to be replaced"),
            ("a open = ok", "a open = foo", "line 18: the case 'one write': its report: 'foo' isn't an answer, which is ok, a refusal or a number"),
            ("played 0 128", "played 0 x", "line 22: the case 'one write': its report: 'x' isn't a number of frames"),
            ("a a.wav", "a a.wav plug linear", "line 2: the case 'one write': a has plug, and what its file is converted to isn't worked out"),
            ("64*5", "63*5", "line 2: the case 'one write': a segment has the frames of a up to 64, and its file has 63"),
            ("played 0 128", "played 0 9999999999999", "a script plays at most 4194304"),
        ):
            status, out, errors = with_file(ONE.replace(old, new, 1), lambda path, _: called("complete", path))
            self.assertEqual((status, out), (2, ""), old)
            self.assertIn(why, errors)

    def test_what_a_case_finds_as_it_must_be_left_is_not_added(self):
        text = ONE.replace("file a.wav", "file o.wav\n~ 1 48000 64*0 64*5\nfile a.wav")
        self.assertEqual(with_file(text, lambda path, _: called("complete", path))[:2], (0, text))

    def test_cases_that_are_unpacked_overwrite_nothing(self):
        def ask(path, room):
            return called("unpack", f"{room}/to", path), sorted(cases.files_in(f"{room}/to/it"))

        two = with_file("case a b\ncall x\nfile f\n|1\ncase a-b\ncall y\nfile f\n|2\n", ask)
        self.assertEqual((two[0][0], [it for it in two[1] if it.endswith("/f")]), (0, ["a-b-2/f", "a-b/f"]))
        (status, _, errors), _ = with_file("case a\ncall x\nfile words\n|1\n", ask)
        self.assertEqual(status, 2)
        self.assertIn("it.cases: line 1: the case 'a' has a file words, where its words or answers go", errors)

    def test_a_case_is_unpacked_as_plain_files(self):
        def ask(path, room):
            status = called("unpack", f"{room}/to", path)[0]
            return status, cases.files_in(f"{room}/to/it/one-write")

        status, files = with_file(ONE, ask)
        self.assertEqual(status, 0)
        self.assertEqual((files["s"], files["words"]), (SCRIPT.encode(), b"run\ns\no\n"))
        self.assertEqual((files["expected/out"], files["expected/status"]), (REPORT.encode(), b"0\n"))


if __name__ == "__main__":
    unittest.main()
