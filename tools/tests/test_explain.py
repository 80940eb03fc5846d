"""What ./dmixlab shows on a terminal of the line that the program put: by a stand-in for the program, which puts a given line and status."""
import os
import pty
import shutil
import signal
import subprocess
import tempfile
import unittest

from terminal import on_terminal

ROOT = os.path.realpath(os.path.join(os.path.dirname(os.path.abspath(__file__)), "..", ".."))
PROGRAM = '#!/bin/sh\n[ -z "$DURING" ] || eval "$DURING"\n[ ! -f "$LINE" ] || cat "$LINE" >&2\nexit "$STATUS"\n'
SCRIPT = """card channels 2 rate 48000 period 64 ring 256
client a sounds/a.wav
reader r
open a
phase
a write 64
end
"""


class OnTerminal(unittest.TestCase):
    """A folder with a wrapper whose program is a stand-in, and a folder in which it is called."""

    def setUp(self):
        self.room = tempfile.TemporaryDirectory()
        self.addCleanup(self.room.cleanup)
        self.at = os.path.realpath(self.room.name)
        self.here = f"{self.at}/here"
        os.makedirs(f"{self.here}/sounds")
        os.makedirs(f"{self.at}/repo/crates/dmixlab")
        os.mkdir(f"{self.at}/repo/build")
        shutil.copy(f"{ROOT}/dmixlab", f"{self.at}/repo/dmixlab")
        os.symlink(f"{ROOT}/tools", f"{self.at}/repo/tools")
        self.write("../repo/crates.txt", "dmixlab:\n")
        self.write("../repo/build/dmixlab", PROGRAM)
        os.chmod(f"{self.at}/repo/build/dmixlab", 0o755)
        self.write("../repo/build/built", "dmixlab\n")

    def write(self, name, text):
        with open(f"{self.here}/{name}", "wb") as file:
            file.write(text if isinstance(text, bytes) else text.encode())

    def settings(self, line, status, **variables):
        if line is not None:
            self.write("../line", line)
        return {**os.environ, "LINE": f"{self.at}/line", "STATUS": str(status), "DMIXLAB_PLAIN": "", "DURING": "", **variables}

    def see(self, line, status, *words, during=None, variables=None, **how):
        """What a terminal gets of a call with these words, for which the program puts this line and has this status."""
        env = self.settings(line, status, **(variables or {}))
        ran = on_terminal([f"{self.at}/repo/dmixlab", *words], during, **{"cwd": self.here, "env": env, **how})
        self.assertEqual(ran.status, status)
        return ran.screen

    def has(self, screen, *texts):
        """Whether a screen has some texts, wherever its lines are folded and its sentences begin."""
        joined = " ".join(screen.split()).lower()
        for it in texts:
            self.assertIn(" ".join(it.split()).lower(), joined)


class Scripts(OnTerminal):
    def refused(self, why, number, text, *more, command="run"):
        self.write("my.script", text)
        words = ["run", "my.script", "o"] if command == "run" else [command, "my.script"]
        screen = self.see(f"dmixlab: script line {number}: {why}\n", 2, *words)
        self.assertTrue(screen.startswith(f"dmixlab: script line {number}: {why}\n"))
        self.has(screen, f"{why}: ", "What to do: ", *more)
        return screen

    def test_a_word_that_is_not_known_is_marked_and_the_nearest_is_named(self):
        screen = self.refused("Word", 6, SCRIPT.replace("a write", "\ta wirte"), "the nearest word is 'write'", "'rewind N'")
        self.assertIn("my.script, line 6:\n     a wirte 64\n       ^^^^^\n", screen)

    def test_a_call_of_the_other_kind_of_actor(self):
        self.refused("Word", 6, SCRIPT.replace("a write", "a read"), "'read' is a call of a reader, and 'a' is a client", "'die K'")
        self.refused("Word", 6, SCRIPT.replace("a write", "a play"), "'play' is a call of the card, and 'a' is a client")
        self.refused("Word", 6, SCRIPT.replace("a write", "card write"), "'write' is a call of a client, and 'card' is the card")
        self.refused("Word", 6, SCRIPT.replace("a write", "card sync"), "'sync' is a call of a client or a reader, and 'card' is the card")

    def test_a_key_and_its_value_are_two_words(self):
        self.refused("Word", 1, "card rate=48000\n", "two words: 'rate 48000'", "'rate' 4000 to 192000 Hz")

    def test_a_value_out_of_a_list(self):
        self.refused("Word", 1, "card share mix\n", "'dmix' or 'dshare'", "the nearest word is 'dmix'")
        self.refused("Word", 2, "card\nclient a a.wav plug yes\n", "after the key 'plug' comes 'linear'")

    def test_a_file_with_a_blank(self):
        self.refused("Word", 2, "card\nclient a my sound.wav\n", "a file's name has no blank")

    def test_a_name_that_was_not_declared(self):
        self.refused("Word", 4, SCRIPT.replace("open a", "open b"), "after 'open' comes a declared name: 'a', 'r'")
        self.refused("Word", 6, SCRIPT.replace("a write", "b write"), "a line within a phase begins with 'card', 'end', 'a', 'r'")

    def test_bytes_that_are_not_of_a_script(self):
        self.refused("Word", 1, b"\xef\xbb\xbfcard\n", "byte order mark", "tail -c +4")
        self.refused("Word", 1, "card".encode("utf-16"), "UTF-16")
        self.refused("Word", 1, b"RIFF....", "WAV file and no script")
        screen = self.refused("Word", 1, b"card\xc2\xa0rate 48000\n", "aren't visible ASCII")
        self.assertIn("    card\\xc2\\xa0rate 48000\n    ^^^^^^^^^^^^^^^^\n", screen)

    def test_what_is_missing_or_too_much(self):
        self.refused("Missing", 6, SCRIPT.replace("write 64", "write"), "after 'write' comes a number, 0 to 4194304 frames", "'a write N'")
        self.refused("Missing", 1, "card rate\n", "after the key 'rate' comes a number, 4000 to 192000 Hz")
        self.refused("Missing", 6, SCRIPT.replace("write 64", "die"), "the form of the line is 'a die K'")
        screen = self.refused("Extra", 6, SCRIPT.replace("64\nend", "64 64\nend"), "'a write N'")
        self.assertIn("    a write 64 64\n               ^^\n", screen)

    def test_numbers(self):
        self.refused("Number", 1, "card rate 48k\n", "digits alone would be '48000'")
        self.refused("Number", 1, "card rate 48,000\n", "digits alone would be '48000'")
        self.refused("Number", 2, "card\nclient a a.wav stop forever\n", "1 to 65536 frames, or 'never'")
        bindings = "after the key 'bindings' come channels of the card, joined by commas without a blank"
        self.refused("Number", 2, "card\nclient a a.wav bindings 0, 1\n", "without blanks it would be '0,1'", bindings)
        self.refused("Number", 2, "card\nclient a a.wav bindings 0,\n", "digits alone would be '0'", bindings)
        self.refused("Number", 1, b"card ring 256\rclient a a.wav\r", "carriage return", "tr '\\r' '\\n'")
        screen = self.refused("Range", 1, "card ring 64 rate 3999\n", "after the key 'rate' comes a number, 4000 to 192000 Hz")
        self.assertIn("    card ring 64 rate 3999\n                      ^^^^\n", screen)

    def test_what_does_not_fit(self):
        # 1000 isn't a multiple of 1024; the nearest ring that is one twice or more is 2048, and 1000 has the period 500
        self.refused("Fit", 1, "card ring 1000\n", "the period is 1024 and the ring 1000 frames", "a ring can be 2048", "a period can be 500")
        self.refused("Fit", 2, "card period 64 ring 256\nclient a a.wav lead 256\n", "a lead is 0 to 255")

    def test_the_order_of_lines(self):
        self.refused("Order", 7, SCRIPT.replace("end\n", "phase\n"), "the phase of line 5 has no 'end' above this line")
        self.refused("Order", 8, SCRIPT + "client b b.wav\n", "begins on line 4")
        self.refused("Order", 8, SCRIPT + "end\n", "no phase is open here")
        self.refused("Order", 8, SCRIPT + "a write 64\n", "calls of 'a' are within a phase")
        self.refused("Order", 1, "client a a.wav\n", "begins with 'card'")
        self.refused("Unended", 5, SCRIPT.replace("end\n", ""))

    def test_names_and_files(self):
        self.refused("Name", 2, "card\nclient my-client a.wav\n", "'my_client' is one")
        self.assertNotIn("is one.", self.refused("Name", 2, "card\nclient \xe4 a.wav\n"))
        self.refused("File", 2, "card\nclient a \xe4.wav\n", "aren't visible ASCII: ä ")
        self.refused("NameTwice", 3, "card\nclient a a.wav\nclient a b.wav\n", "line 2 declares it")
        self.refused("KeyTwice", 1, "card rate 8000 rate 8000\n", "the key 'rate' is on this line already")

    def test_what_the_lines_above_decide(self):
        self.refused("BindingRange 2", 2, "card channels 2\nclient a a.wav bindings 2\n", "the card has 2 channels, so they are 0 to 1")
        self.refused("BindingRange 1", 2, "card channels 1\nclient a a.wav bindings 1\n", "the card has one channel, 0.")
        self.refused("BindingTwice 0", 2, "card channels 2\nclient a a.wav bindings 0,0\n")
        played = "card\nphase\ncard play 4194304\nend\nphase\ncard play 1\nend\n"
        self.refused("Frames", 6, played, "the lines above play 4194304 frames, so at most 0 are left")
        self.refused("Unplugged", 6, "card\nphase\ncard unplug\nend\nphase\ncard play 1\nend\n", "line 3 unplugs it")
        self.refused("Alone", 4, "card\nphase\ncard play 1\ncard unplug\nend\n")
        self.refused("TooMany", 66, "card\n" + "".join(f"client c{it} a.wav\n" for it in range(65)), "this is client 65")
        self.refused("LapEnd", 3, "card lap 4294967294\nphase\ncard play 16384\n", "lap 4294967294", "at most 0 frames, of which 0 are left here")
        lap = "card ring 256 period 64 lap 4294967292\nphase\ncard play 256\ncard play 300\n"
        self.refused("LapEnd", 4, lap, "a ring of 256 frames, so it plays at most 512 frames, of which 256 are left here")
        self.refused("BindingsTooMany", 2, "card channels 8\nclient a a.wav bindings 0,1,2,3,4,5,6,7,0\n")
        self.refused("BindingsEmpty", 1, "card\n")

    def test_the_text_as_a_whole(self):
        self.refused("NoCard", 0, "", "it is empty")
        self.refused("NoCard", 0, "# one\n", "blanks and comments alone")
        self.refused("TooLong", 0, "x" * 1048577, "first bytes are xxxx")

    def test_a_text_of_refine(self):
        slave = "slave channels 2 rate 48000 period 1024 ring 8192\n"
        self.refused("Word", 2, slave + "min access 3\n", "'access' and 'format' have 'set' and 'show' alone", command="refine")
        self.refused("Word", 2, slave + "set periodsize 3\n", "the nearest word is 'period_size'", command="refine")
        self.refused("Word", 1, slave.replace("rate", "period"), "here 'rate' must be", command="refine")
        self.refused("Range", 2, slave + "set access 64\n", "0 to 63", command="refine")
        self.refused("Missing", 2, slave + "near rate\n", "'near PARAM N'", command="refine")
        self.refused("Order", 2, slave + slave, "a line here begins with 'set', 'min'", command="refine")
        self.refused("Fit", 1, slave.replace("8192", "8000"), "a ring can be 8192", "a period can be 1000", command="refine")

    def test_a_long_line_is_shown_in_part(self):
        self.write("my.script", "card\nclient a a.wav " + "x " * 100000)
        screen = self.see("dmixlab: script line 2: Word\n", 2, "run", "my.script", "o")
        self.assertLess(max(map(len, screen.splitlines())), 200)
        self.assertIn("    client a a.wav x x x", screen)

    def test_a_binary_file_fills_no_screen(self):
        for text in (b"\x7fELF" + b"\x02\x01\0\xff" * 600 + b"\n", b"\x02\x01\0\xff" * 600 + b"\n", b"card " + b"\xfe" * 1200 + b"\n"):
            screen = self.refused("Word", 1, text)
            self.assertLess(max(map(len, screen.splitlines())), 200)
            self.assertLess(screen.count("^"), 80)
        self.has(self.refused("Word", 1, b"\x02\x01\0\xff"), "the file has zero bytes, so it is no text")

    def test_a_script_that_cannot_be_read_again(self):
        theirs, ours = os.pipe()
        self.addCleanup(os.close, ours)
        screen = self.see("dmixlab: script line 2: Word\n", 2, "run", "/dev/stdin", "o", stdin=theirs)
        os.close(theirs)
        self.assertTrue(screen.startswith("dmixlab: script line 2: Word\nWord: a word isn't one of those"))

    def test_a_script_that_was_changed(self):
        self.refused("Word", 200, SCRIPT, "no such line by now")
        self.assertNotIn("^", self.refused("Range", 2, SCRIPT))


class Files(OnTerminal):
    def read(self, name, *more, script=SCRIPT):
        self.write("my.script", script)
        screen = self.see(f"dmixlab: read {name}\n", 4, "run", "my.script", "o")
        self.has(screen, f"dmixlab: read {name} ", *more)
        return screen

    def test_why_a_file_is_not_read(self):
        screen = self.read("sounds/a.wav", "'sounds/a.wav': no such file or directory")
        self.assertIn("my.script, line 2:\n    client a sounds/a.wav\n             ^^^^^^^^^^^^\n", screen)
        os.mkdir(f"{self.here}/sounds/a.wav")
        self.read("sounds/a.wav", "is a directory")
        os.rmdir(f"{self.here}/sounds/a.wav")
        os.mkfifo(f"{self.here}/sounds/a.wav")
        self.read("sounds/a.wav", "it is a pipe, which can be read once")
        again = SCRIPT.replace("reader r", "client b sounds/a.wav")
        self.read("sounds/a.wav", "my.script, line 3: client b sounds/a.wav", script=again)
        os.remove(f"{self.here}/sounds/a.wav")
        os.symlink("gone.wav", f"{self.here}/sounds/a.wav")
        self.read("sounds/a.wav", "it is a link to gone.wav")
        os.remove(f"{self.here}/sounds/a.wav")
        self.write("sounds/a.wav", "")
        self.read("sounds/a.wav", "it can be read by now")

    @unittest.skipIf(os.geteuid() == 0, "root may read each file")
    def test_a_file_that_may_not_be_read(self):
        self.write("sounds/a.wav", "")
        os.chmod(f"{self.here}/sounds/a.wav", 0)
        self.read("sounds/a.wav", "permission denied")

    def test_where_it_is_or_how_it_is_named(self):
        self.write("sounds/over.wav", "")
        self.assertNotIn("over.wav' is there", self.read("sounds/nope.wav", "no such file", script="card\nclient a sounds/nope.wav\n"))
        self.write("sounds/aa.wav", "")
        self.read("sounds/a.wav", "'sounds/aa.wav' is there")
        self.read("~/a.wav", "write the whole path", script="card\nclient a ~/a.wav\n")
        self.read('"a.wav"', "without quotes", script='card\nclient a "a.wav"\n')
        screen = self.see("dmixlab: read my.scrip\n", 4, "run", "my.scrip", "o")
        self.has(screen, "'my.scrip': no such file", "'my.script' is there")
        self.has(self.see("dmixlab: read -\n", 4, "run", "-", "o"), "standard input is '/dev/stdin'")

    def test_a_file_beside_its_script(self):
        self.write("sounds/s", "card\nclient a a.wav\n")
        self.write("sounds/a.wav", "")
        screen = self.see("dmixlab: read a.wav\n", 4, "run", "sounds/s", "o")
        self.has(screen, "'sounds/a.wav' is there: files are named from the folder in which the program runs")

    def test_a_name_with_a_comment_in_it(self):
        script = "card\nclient a sounds/a.wav#2.wav plug linear\n"
        self.write("my.script", script)
        screen = self.see("dmixlab: wav sounds/a.wav: Bits 24\n", 3, "run", "my.script", "o")
        self.has(screen, "the name ends before '#2.wav plug linear': a comment begins at a '#'")
        self.read("sounds/a", "ends before '#1.wav': a comment begins at a '#' also within a word", script="card\nclient a sounds/a#1.wav\n")

    def test_which_file_is_not_written(self):
        self.write("my.script", SCRIPT)
        write = ("dmixlab: write\n", 5, "run", "my.script")
        self.has(self.see(*write, "none/o"), "'none/o.wav': the folder 'none' isn't there")
        os.mkdir(f"{self.here}/o.wav")
        self.has(self.see(*write, "o"), "'o.wav': is a directory")
        os.mkdir(f"{self.here}/p.r.wav")
        self.has(self.see(*write, "p"), "'p.r.wav': is a directory")
        self.has(self.see(*write, "x" * 300), "file name too long")
        os.symlink("none/q.wav", f"{self.here}/q.wav")
        self.has(self.see(*write, "q"), "none' isn't there")
        self.has(self.see(*write, "fine"), "it was 'fine.wav' or 'fine.r.wav' or standard output; nothing is in its way by now")
        os.mkdir(f"{self.here}/made-1.wav")
        self.has(self.see("dmixlab: write\n", 5, "make", "1", "2", "3"), "'made-1.wav': is a directory")

    @unittest.skipIf(os.geteuid() != 0, "root alone may write in /proc")
    def test_a_file_system_that_takes_no_files(self):
        self.write("my.script", SCRIPT)
        self.has(self.see("dmixlab: write\n", 5, "run", "my.script", "/proc/o"), "the file system of '/proc' has no room for files")

    @unittest.skipIf(os.geteuid() == 0, "root may write each file")
    def test_a_file_that_may_not_be_written(self):
        self.write("my.script", SCRIPT)
        os.chmod(f"{self.here}/sounds", 0o500)
        self.has(self.see("dmixlab: write\n", 5, "run", "my.script", "sounds/o"), "may not be written in")
        os.chmod(f"{self.here}/sounds", 0o700)
        self.write("o.wav", "")
        os.chmod(f"{self.here}/o.wav", 0o400)
        self.has(self.see("dmixlab: write\n", 5, "run", "my.script", "o"), "'o.wav': permission denied")

    def test_standard_output_that_is_not_written(self):
        self.write("t", "")
        write = ("dmixlab: write\n", 5, "refine", "t")
        with open("/dev/full", "wb") as full:
            self.has(self.see(*write, stdout=full), "standard output: no space left on device")
        ours, theirs = os.pipe()
        os.close(ours)
        self.has(self.see(*write, stdout=theirs), "standard output: nobody reads it")
        os.close(theirs)
        env = self.settings("dmixlab: write\n", 5)
        ran = on_terminal(["sh", "-c", 'exec "$0" refine t >&-', f"{self.at}/repo/dmixlab"], cwd=self.here, env=env)
        self.assertEqual(ran.status, 5)
        self.has(ran.screen, "standard output: it is closed")

    def test_memory(self):
        self.has(self.see("dmixlab: read gone\n", 4, "refine", "gone"), "named from the folder in which the program runs")
        self.has(self.see("dmixlab: memory\n", 6, "refine", "t"), "memory ran out.", "What to do: ")


class Sounds(OnTerminal):
    def wav(self, why, first, *more, script=SCRIPT, name="sounds/a.wav"):
        self.write("my.script", script)
        self.write(name, first)
        screen = self.see(f"dmixlab: wav {name}: {why}\n", 3, "run", "my.script", "o")
        self.has(screen, f"dmixlab: wav {name}: {why} ", f"{why}: ", "What to do: ", *more)
        return screen

    def test_bits_point_to_plug_first(self):
        screen = self.wav("Bits 24", b"RIFF", "with 'plug linear' on line 2", "\n    client a sounds/a.wav plug linear\n", "sounds/a-16.wav")
        self.assertIn("my.script, line 2:\n    client a sounds/a.wav\n             ^^^^^^^^^^^^\n", screen)
        self.assertLess(screen.index("client a sounds/a.wav plug linear"), screen.index("a-16.wav"))
        captured = self.wav("Bits 24", b"RIFF", "sounds/a-16.wav", script="card capture sounds/a.wav\n")
        self.assertNotIn("on line", captured)
        self.assertNotIn("on line", self.wav("Bits 20", b"RIFF"))

    def test_what_a_file_is_that_is_no_wav_file(self):
        convert = "ffmpeg -i sounds/a.wav -c:a pcm_s16le sounds/a-16.wav"
        kinds = {b"RF64": "RF64", b"RIFX": "RIFX", b"riff": "W64", b"FORM": "AIFF", b"fLaC": "FLAC", b"ID3\x04": "MP3", b"OggS": "Ogg", b"caff": "CAF"}
        for first, kind in kinds.items():
            self.wav("NotRiff", first, f"it begins as {kind}", convert)
        self.assertNotIn("-c:a pcm_s16le sounds", self.wav("NotRiff", b"", "the file is empty"))
        page = self.wav("NotRiff", b"<!doctype html>", "it begins as HTML or XML", "What to do: get the sound itself from where this came")
        self.assertNotIn("ffmpeg -i sounds", page)
        self.wav("NotRiff", b"\x1b[31m", "its first bytes are \\x1b[31m")
        text = self.wav("NotRiff", b"card rate 48000\n", "it is a text, which begins with 'card'", "What to do: name the WAV file")
        self.assertNotIn("ffmpeg -i sounds", text)

    def test_samples_that_are_not_pcm(self):
        for tag, what in ((3, "floating point"), (7, "mu-law"), (6, "A-law")):
            self.wav(f"Tag {tag}", b"RIFF", f"its samples are {what}", "sounds/a-16.wav")
        self.wav("Tag 85", b"RIFF", "its samples are MP3", "ffmpeg -i sounds/a.wav")

    def test_others(self):
        self.wav("Channels 9", b"RIFF", "sox sounds/a.wav -c 2 sounds/a-16.wav")
        for why in ("NotWave", "NoFormat", "FormatTwice", "ShortFormat", "RateZero", "NoData", "TooLong", "Channels 0"):
            self.wav(why, b"RIFF")

    def test_of_a_pipe_no_command_is_shown_that_would_wait(self):
        self.write("my.script", SCRIPT)
        os.mkfifo(f"{self.here}/sounds/a.wav")
        screen = self.see("dmixlab: wav sounds/a.wav: Bits 24\n", 3, "run", "my.script", "o")
        self.has(screen, "it is a pipe or a device: store its bytes in a file, and convert that one", "client a sounds/a.wav plug linear")
        self.assertNotIn("a-16.wav", screen)

    def test_a_name_for_a_shell(self):
        script = "card\nclient a it's.wav\n"
        self.wav("NotRiff", b"fLaC", """ffmpeg -i 'it'"'"'s.wav'""", script=script, name="it's.wav")


class Configurations(OnTerminal):
    def conf(self, why, number, text, name, *more):
        self.write("my.conf", text)
        screen = self.see(f"dmixlab: conf line {number}: {why}\n", 2, "conf", "my.conf", name)
        self.has(screen, f"dmixlab: conf line {number}: {why} ", f"{why}: ", "What to do: ", *more)
        return screen

    DMIX = 'pcm.dmixer { type dmix ipc_key 1 slave { pcm "hw:0" rate 44100 } }\n'

    def test_a_device_over_another_one(self):
        plug = self.DMIX + 'pcm.!default { type plug slave.pcm "dmixer" }\n'
        self.conf("PluginType", 0, plug, "default", "its type is 'plug'", "it stands over 'dmixer', a dmix device: ask for that name")
        asym = plug + 'pcm.both { type asym playback.pcm "default" capture.pcm "hw:0" }\n'
        self.conf("Missing", 0, asym, "both", "of the type 'asym' and has no slave", "it stands over 'dmixer'")
        self.conf("Missing", 0, asym + "pcm.alias both\n", "alias", "an alias of 'both'", "it stands over 'dmixer'")

    def test_a_device_within_another_one(self):
        text = "pcm.left { type plug slave.pcm { type dshare ipc_key 2 slave { channels 8 } bindings.0 0 } }\n"
        self.conf("PluginType", 0, text, "left", "a dshare device stands within its 'slave.pcm', without a name", "share dshare")

    def test_a_device_that_is_not_there(self):
        self.conf("Missing", 0, self.DMIX, "dmixr", "there is no 'pcm.dmixr'", "the nearest that can be asked for is 'dmixer'")
        self.conf("Missing", 0, self.DMIX, "pcm.dmixer", "what follows 'pcm.', without '!': 'dmixer'")
        self.conf("Missing", 0, self.DMIX, "zz", "these devices of the file can be asked for: 'dmixer'")
        lost = self.conf("Missing", 0, "pcm.a { type dmix slave s }\n", "a", "its slave is 'pcm_slave.s', which isn't in the file")
        self.has(lost, "What to do: copy 'pcm_slave.s' into it, or give the device a group 'slave { .. }'.")
        self.assertNotIn("asym the one", " ".join(lost.split()))
        self.conf("Missing", 0, "pcm.a { type hw card 0 }\n", "a", "of the type 'hw' and has no slave", "no device of the file")

    def test_fields_of_a_slave(self):
        self.conf("Range", 0, self.DMIX.replace("44100", "3000"), "dmixer", "its slave has 'rate 3000'", "'rate' is 4000 to 192000")
        self.conf("Number", 0, self.DMIX.replace("44100", "44k"), "dmixer", "'rate' is no number")
        self.conf("Format", 0, self.DMIX.replace("rate 44100", "format S32_LE"), "dmixer", "its slave has 'format S32_LE'")
        self.conf("Fit", 0, self.DMIX.replace("rate 44100", "period_size 1000 buffer_size 4096"), "dmixer", "'period_size 1000', 'buffer_size 4096'")

    def test_the_sizes_that_do_not_fit(self):
        slave = "pcm.a { type dmix slave { %s } }\n"
        for fields, *more in (
            ("period_size 1000 buffer_size 4096", "period has 1000 frames and its ring 4096", "a ring can be 4000", "a period can be 1024"),
            # 85333 microseconds are 4095.98 frames at 48000 Hz
            ("buffer_time 85333", "its period has 1024 frames and its ring 4095", "a ring can be 4096"),
            ("period_time 21333 buffer_size 8192", "its period has 1023 frames and its ring 8192", "a ring can be 8184"),
            ("period_size 64 periods 1", "its period has 64 frames and its ring 64", "a ring can be 128"),
        ):
            self.conf("Fit", 0, slave % fields, "a", *more)

    def test_bindings_that_cannot_be(self):
        device = "pcm.a { type dmix slave { pcm x %s } bindings { 0 0 2 1 } }\n"
        self.conf("BindingKey", 0, device % "", "a", "the keys are '0', '2', so key 1 is missing")
        self.conf("BindingRange 5", 0, device % "", "a", "its slave has no 'channels', which is 2, so it has the channels 0 to 1")
        self.conf("BindingRange 5", 0, device % "channels 4", "a", "its slave has 'channels 4', so it has the channels 0 to 3")
        self.conf("BindingRange 5", 0, device % "channels 1", "a", "its slave has 'channels 1', the channel 0")

    def test_lines(self):
        screen = self.conf("Include", 2, "# mine\n</usr/share/alsa/alsa.conf>\n", "x", "into a file of their own")
        self.assertIn("my.conf, line 2:\n    </usr/share/alsa/alsa.conf>\n    ^^^^^^^^", screen)
        screen = self.conf("Function", 1, "a { @func refer }\n", "x")
        self.assertIn("    a { @func refer }\n        ^^^^^\n", screen)
        self.conf("Escape", 1, 'a "\\""\n', "x")
        for why in ("Byte", "Unclosed", "Prefix", "Key", "Close", "Value", "Deep", "Kind"):
            self.conf(why, 1, "a..b +c = }\n", "x")
        for why in ("TooLong", "BindingKey", "BindingsEmpty", "BindingsTooMany", "BindingRange 2", "BindingTwice 0"):
            self.conf(why, 0, self.DMIX, "dmixer")

    def test_a_file_with_thousands_of_groups_within_each_other(self):
        self.conf("Missing", 0, "a { " * 100000, "x")


class Checks(OnTerminal):
    def no(self, number, report, *texts):
        """What is shown of a check that fails at a line of a report."""
        if report is not None:
            self.write("my.report", report)
        screen = self.see(f"dmixlab: no: line {number}\n", 7, "check", "my.script", "my.report", "my")
        self.assertTrue(screen.startswith(f"dmixlab: no: line {number}\n"))
        self.has(screen, *texts)
        return screen

    def test_the_line_and_what_is_tested_at_it(self):
        lines = ["dmixlab 1", "1 a write 1 = 1 RUNNING 0", "2 a sync = EPIPE late 96 0 XRUN 128", "2 r read 8 = 8 RUNNING 128", "segment a 0 64 1 0", "run r 0 8", "played 0 128", "end"]
        report = "\n".join(lines) + "\n"
        for number, text in enumerate(
            ["isn't one that a report of this script has", "isn't one that a report", "a late row names", "the frames of its runs", "takes frames that its client's file has"]
            + ["read to its end", "what the script's card plays, or 'OUT.wav'", "the file of a reader"],
            1,
        ):
            self.has(self.no(number, report, text), f"my.report, line {number}: {lines[number - 1]}")

    def test_the_whole_report(self):
        self.no(0, "", "the report is empty")
        self.no(0, "dmixlab 1\n", "line 0", "what to do: ")

    def test_a_report_that_is_gone(self):
        self.no(5, None, "fails a test at its line", "what to do: ")


class Words(OnTerminal):
    def words(self, *given):
        screen = self.see("dmixlab: words\n", 1, *given)
        self.has(screen, "dmixlab: words ", "--help", "\n    dmixlab run SCRIPT OUT\n    dmixlab check SCRIPT REPORT OUT\n")
        return screen

    def test_forms_and_what_is_wrong(self):
        self.has(self.words(), "there is no word")
        for it in (["-h"], ["help"], ["run", "--help"]):
            self.has(self.words(*it), "the word for help is '--help', alone")
        self.has(self.words("rum", "a", "b"), "'rum' is no command; the nearest is 'run'")
        self.has(self.words("run", "a"), "'run' takes SCRIPT and OUT; 1 is given")
        self.has(self.words("check", "s", "r"), "'check' takes SCRIPT and REPORT and OUT; 2 are given")
        self.has(self.words("make", "1", "65", "1"), "CLIENTS is a number from 1 to 64")
        self.has(self.words("run", "", "o"), "SCRIPT has 0 bytes")
        self.has(self.words("conf", "f", "a b"), "NAME isn't 1 to 64 visible ASCII characters")
        self.has(self.words("conf", "f", ""), "NAME is empty.")

    def test_the_forms_are_those_of_the_help(self):
        with open(f"{ROOT}/docs/help.txt") as file:
            forms = [line.replace("usage:", "").strip() for line in file.read().split("\n\n")[0].splitlines()]
        shown = [line.strip() for line in self.words().splitlines() if line.startswith("    dmixlab")]
        self.assertEqual(shown, forms)


class Plain(OnTerminal):
    LINE = b"dmixlab: read no\nsuch \x1b[31m\xff\x7ffile\n"

    def test_off_a_terminal_the_bytes_are_the_program_s(self):
        env = self.settings(self.LINE, 4)
        ran = subprocess.run([f"{self.at}/repo/dmixlab", "run", "s", "o"], cwd=self.here, env=env, capture_output=True)
        self.assertEqual((ran.returncode, ran.stdout, ran.stderr), (4, b"", self.LINE))

    def test_off_a_terminal_the_wrapper_becomes_the_program(self):
        env = self.settings(b"", 0, DURING="echo $$")
        with subprocess.Popen([f"{self.at}/repo/dmixlab"], env=env, stdout=subprocess.PIPE, stderr=subprocess.PIPE, text=True) as ran:
            self.assertEqual(ran.communicate()[0], f"{ran.pid}\n")

    def test_a_setting_keeps_the_bytes(self):
        screen = self.see(b"dmixlab: words\n", 1, variables={"DMIXLAB_PLAIN": "1"})
        self.assertEqual(screen, "dmixlab: words\n")
        self.assertIn("dmixlab run SCRIPT OUT", self.see(b"dmixlab: words\n", 1, variables={"DMIXLAB_PLAIN": "0"}))

    def test_without_python_the_bytes_are_the_program_s(self):
        os.mkdir(f"{self.at}/bin")
        for it in ("sh", "cat", "readlink", "dirname", "find"):
            os.symlink(shutil.which(it), f"{self.at}/bin/{it}")
        screen = self.see(b"dmixlab: words\n", 1, variables={"PATH": f"{self.at}/bin"})
        self.assertEqual(screen, "dmixlab: words\n")

    def test_control_bytes_are_shown_and_not_sent(self):
        screen = self.see(self.LINE, 4, "run", b"no\nsuch \x1b[31m\xff\x7ffile", "o")
        self.assertEqual(screen.splitlines()[0], "dmixlab: read no\\x0asuch \\x1b[31m\\xff\\x7ffile")
        self.assertNotIn("\x1b", screen)
        self.write("my.script", b"card\nclient a \x1b[31m\xc2\x9b31m\xe2\x80\xae.wav\n")
        screen = self.see(b"dmixlab: script line 2: File\n", 2, "run", "my.script", "o")
        self.assertIn("client a \\x1b[31m\\xc2\\x9b31m\\xe2\\x80\\xae.wav\n", screen)
        self.assertNotIn("\x1b", screen)
        self.assertNotIn("\x9b", screen)

    def test_what_is_no_line_of_the_program_is_shown_as_it_is(self):
        for it in (b"", b"a crash\nof two lines\n", b"dmixlab: something else\n", b"dmixlab: words"):
            self.assertEqual(self.see(it, 3), it.decode())

    def test_in_a_locale_of_ascii(self):
        self.write("my.script", "card\nclient \xe4 a.wav\n")
        variables = {"LC_ALL": "C", "PYTHONIOENCODING": "ascii", "PYTHONUTF8": "0"}
        self.has(self.see("dmixlab: script line 2: Name\n", 2, "run", "my.script", "o", variables=variables), "client \\xe4 a.wav")


class Kept(OnTerminal):
    """Status, signals and streams are the program's own."""

    def test_status_and_standard_output(self):
        for status in (0, 1, 70, 255):
            ran = on_terminal([f"{self.at}/repo/dmixlab", "a b", ""], env=self.settings(b"", status, DURING='printf "[%s]" "$@"'))
            self.assertEqual((ran.status, ran.out, ran.screen), (status, "[a b][]", ""))

    def test_standard_input_and_other_descriptors(self):
        env = self.settings(b"", 0, DURING="cat; cat <&9")
        words = ["sh", "-c", 'exec "$0" 9</proc/version', f"{self.at}/repo/dmixlab"]
        with open(f"{ROOT}/crates.txt") as given, open("/proc/version") as other:
            ran = on_terminal(words, env=env, stdin=given)
            given.seek(0)
            self.assertEqual(ran.out, given.read() + other.read())

    def test_a_death_by_a_signal(self):
        for number in (signal.SIGKILL, signal.SIGSEGV, signal.SIGINT, signal.SIGPIPE, signal.SIGXFSZ):
            ran = on_terminal([f"{self.at}/repo/dmixlab"], env=self.settings(None, 0, DURING=f"kill -{int(number)} $$"))
            self.assertEqual(ran.status, -number)

    def test_signals_reach_the_program(self):
        for number in (signal.SIGINT, signal.SIGTERM, signal.SIGHUP):
            self.assertEqual(self.signalled(number, "echo x; exec sleep 60").status, -number)
            self.assertEqual(self.signalled(number, f"trap 'exit 9' {int(number)}; echo x; while :; do sleep 0.05; done").status, 9)

    def signalled(self, number, during):
        """What is left of a call that gets a signal once its program runs."""

        def send(ran):
            ran.stdout.read(2)
            ran.send_signal(number)

        env = self.settings(b"", 0, DURING=during)
        return on_terminal([f"{self.at}/repo/dmixlab"], send, env=env, bufsize=0)

    def test_the_key_for_an_interrupt_ends_both(self):
        env = self.settings(b"", 0, DURING="echo x; exec sleep 60")
        number, master = pty.fork()
        if number == 0:
            os.execve(f"{self.at}/repo/dmixlab", ["dmixlab"], env)
        self.addCleanup(os.close, master)
        self.assertEqual(os.read(master, 1), b"x")
        os.write(master, b"\x03")
        self.assertEqual(os.waitpid(number, 0)[1], signal.SIGINT)

    def test_a_signal_that_is_ignored_stays_so(self):
        env = self.settings(b"", 4, DURING="kill -2 $$; kill -2 $PPID; sleep 0.2")
        words = ["sh", "-c", 'trap "" INT; "$0"', f"{self.at}/repo/dmixlab"]
        self.assertEqual(on_terminal(words, env=env).status, 4)

    def test_a_program_that_cannot_be_run(self):
        ran = on_terminal(["python3", f"{ROOT}/tools/explain.py", f"{self.at}/none"])
        self.assertEqual(ran.status, 70)
        self.assertIn("No such file or directory", ran.screen)


if __name__ == "__main__":
    unittest.main()
