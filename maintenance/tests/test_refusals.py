"""How the commands of maintenance/ refuse words and what they do where standard output takes no more."""
import glob
import os
import shutil
import subprocess
import sys
import tempfile
import unittest

ROOT = os.path.realpath(os.path.join(os.path.dirname(os.path.abspath(__file__)), "..", ".."))
sys.path.insert(0, f"{ROOT}/tools/tests")
from terminal import on_terminal

REFUSED, NOT_WRITTEN = 2, 5
# these pass on what a program puts
PASSING = ("tools/try_run.py", "tools/explain.py")


def ended(name, *words, **outputs):
    """What a command of maintenance/ ends with."""
    path = f"{ROOT}/maintenance/{name}" if "/" not in name else name
    call = ([sys.executable] if path.endswith(".py") else []) + [path, *words]
    how = {"stdin": subprocess.DEVNULL, "stdout": subprocess.PIPE, "stderr": subprocess.PIPE, **outputs}
    return subprocess.run(call, text=True, **how)


class Words(unittest.TestCase):
    def test_what_isn_t_there_is_refused_by_a_line(self):
        for words, line in [
            (("check_claims.py", "nope"), "'nope' is no crate of crates.txt; there are: snd_base, "),
            (("check_claims.py", "wav_oi"), "(did you mean wav_io?)"),
            (("check_definitions.py", "nope"), "'nope' is no crate of crates.txt"),
            (("check_library.py", "nope"), "unrecognized arguments: nope"),
            (("check_help.py", "--wirte"), "unrecognized arguments: --wirte"),
            (("check_refusals.py", "--wirte"), "unrecognized arguments: --wirte"),
            (("check_mixed.py",), "required: program"),
            (("check_mixed.py", "/nope"), "there is no program /nope"),
            (("check_mixed.py", "/etc/passwd"), "/etc/passwd can't be run as a program"),
            (("check_mixed.py", "/bin/true", "--runs", "0"), "'0' is no number from 1 on"),
            (("run_tests.py", "nope"), "'nope' is no crate of crates.txt"),
            (("run_tests.py", "--jobs", "0"), "'0' is no number from 1 on"),
            (("build_rules.py", "nope"), "unrecognized arguments: nope"),
            (("check_all.sh", "nope"), "it has no words"),
            (("check_c.sh", "nope"), "the words are --seconds N, --contend N and --backend NAME"),
            (("install.sh",), "the words are DESTDIR and PREFIX"),
            (("prove_crate.sh", "name"), "the words are NAME MARK WORK WORD.."),
        ]:
            ran = ended(*words)
            self.assertEqual((ran.returncode, ran.stdout, len(ran.stderr.splitlines())), (REFUSED, "", 1), (words, ran.stderr))
            self.assertIn(line, ran.stderr)
            self.assertTrue(ran.stderr.startswith(words[0].split(".")[0] + ": "), ran.stderr)


class Outputs(unittest.TestCase):
    def ended_without_output(self, *words, **how):
        """What a command says where standard output is full, and where nobody reads it."""
        reader, writer = os.pipe()
        os.close(reader)
        with open("/dev/full", "wb") as full, os.fdopen(writer, "wb") as pipe:
            for out in (full, pipe):
                ran = ended(*words, stdout=out, **how)
                self.assertEqual((ran.returncode, len(ran.stderr.splitlines())), (NOT_WRITTEN, 1), (words, ran.stderr))
                self.assertIn("can't write standard output", ran.stderr)

    def test_each_command_says_where_its_output_takes_no_more(self):
        for path in glob.glob(f"{ROOT}/tools/*.py") + glob.glob(f"{ROOT}/maintenance/*.py"):
            with open(path, encoding="utf-8") as file:
                text = file.read()
            if 'if __name__ == "__main__":' in text and os.path.relpath(path, ROOT) not in PASSING:
                self.assertIn("    command.run(", text, path)

    def test_a_full_device_and_a_closed_pipe_have_a_status_and_a_line(self):
        for name in ("check_claims.py", "check_definitions.py", "check_library.py", "check_help.py", "check_refusals.py"):
            self.ended_without_output(name)
        for name in ("check_mixed.py", "run_tests.py", "build_rules.py"):
            self.ended_without_output(name, "--help")

    def test_a_program_that_can_t_be_run_is_said(self):
        with tempfile.TemporaryDirectory() as room:
            with open(f"{room}/program", "wb") as file:
                file.write(b"\x7fELF")
            os.chmod(f"{room}/program", 0o755)
            ran = ended("check_mixed.py", f"{room}/program", "--runs", "1")
        self.assertEqual((ran.returncode, len(ran.stderr.splitlines())), (REFUSED, 1), ran.stderr)
        self.assertIn("program: Exec format error", ran.stderr)


class CheckC(unittest.TestCase):
    def test_what_isn_t_built_isn_t_tested(self):
        with tempfile.TemporaryDirectory() as room:
            os.mkdir(f"{room}/maintenance")
            shutil.copy(f"{ROOT}/maintenance/check_c.sh", f"{room}/maintenance/check_c.sh")
            ran = ended(f"{room}/maintenance/check_c.sh")
            self.assertEqual((ran.returncode, ran.stdout), (REFUSED, ""))
            self.assertEqual(ran.stderr, "check_c: there is no build/libdmix_c.a yet; make library builds it\n")
            self.assertFalse(os.path.exists(f"{room}/build"))


class Install(unittest.TestCase):
    """install.sh in a folder with a stand-in for the built program."""

    def setUp(self):
        self.room = tempfile.TemporaryDirectory()
        self.addCleanup(self.room.cleanup)
        self.at = os.path.realpath(self.room.name)
        tools = [f"tools/{it}" for it in os.listdir(f"{ROOT}/tools") if it.endswith((".bash", ".py", ".tsv"))]
        for name in ("maintenance/install.sh", "dmixlab", "docs/dmixlab.1", "docs/SCRIPTS.md", *tools):
            os.makedirs(os.path.dirname(f"{self.at}/{name}"), exist_ok=True)
            shutil.copy(f"{ROOT}/{name}", f"{self.at}/{name}")
        os.mkdir(f"{self.at}/demo")
        for name in ("it.script", "it.wav", "asound.conf"):
            open(f"{self.at}/demo/{name}", "w").close()

    def build(self):
        os.mkdir(f"{self.at}/build")
        with open(f"{self.at}/build/dmixlab", "w") as file:
            file.write("#!/bin/sh\necho ran $*\n[ $1 != -h ] || { echo dmixlab: words >&2; exit 1; }\n")
        os.chmod(f"{self.at}/build/dmixlab", 0o755)

    def test_what_isn_t_built_isn_t_installed(self):
        ran = ended(f"{self.at}/maintenance/install.sh", "", f"{self.at}/to")
        self.assertEqual((ran.returncode, ran.stdout), (REFUSED, ""))
        self.assertEqual(ran.stderr, "install: there is no build/dmixlab yet; make builds it\n")
        self.assertFalse(os.path.exists(f"{self.at}/to"))

    def test_the_installed_command_runs_the_program(self):
        self.build()
        ran = ended(f"{self.at}/maintenance/install.sh", self.at, "/to")
        self.assertEqual((ran.returncode, ran.stderr), (0, ""))
        self.assertEqual(ended(f"{self.at}/to/bin/dmixlab", "a").stdout, "ran a\n")
        for name in ("man/man1/dmixlab.1", "bash-completion/completions/dmixlab", "doc/dmixlab/SCRIPTS.md", "doc/dmixlab/demo/it.wav"):
            self.assertTrue(os.path.exists(f"{self.at}/to/share/{name}"), name)

    def test_the_library_for_c_is_installed_where_it_is_built(self):
        self.build()
        ended(f"{self.at}/maintenance/install.sh", self.at, "/to")
        self.assertFalse(os.path.exists(f"{self.at}/to/include"))
        built = ("include/dmixlab.h", "lib/libdmixlab.a", "lib/libdmixlab.so.0", "lib/libdmixlab.so")
        for name in ("include/dmixlab.h", "c/dmixlab.pc.in", "docs/version.txt"):
            os.makedirs(os.path.dirname(f"{self.at}/{name}"), exist_ok=True)
            shutil.copy(f"{ROOT}/{name}", f"{self.at}/{name}")
        os.mkdir(f"{self.at}/build/c")
        for name in ("libdmixlab.a", "libdmixlab.so.0"):
            open(f"{self.at}/build/c/{name}", "w").close()
        ran = ended(f"{self.at}/maintenance/install.sh", self.at, "/to")
        self.assertEqual((ran.returncode, ran.stderr), (0, ""))
        for name in built:
            self.assertTrue(os.path.exists(f"{self.at}/to/{name}"), name)
        with open(f"{self.at}/to/lib/pkgconfig/dmixlab.pc") as file:
            text = file.read()
        self.assertIn("prefix=/to\n", text)
        self.assertNotIn("@", text)

    def test_the_installed_command_explains_on_a_terminal(self):
        self.build()
        ended(f"{self.at}/maintenance/install.sh", self.at, "/to")
        os.rename(f"{self.at}/tools", f"{self.at}/gone")
        ran = on_terminal([f"{self.at}/to/bin/dmixlab", "-h"])
        self.assertEqual((ran.status, ran.out), (1, "ran -h\n"))
        self.assertTrue(ran.screen.startswith("dmixlab: words\nThe word for help is '--help', alone.\n"), ran.screen)
        self.assertEqual(ended(f"{self.at}/to/bin/dmixlab", "-h").stderr, "dmixlab: words\n")

    def test_an_output_that_takes_no_more_is_said(self):
        self.build()
        Outputs.ended_without_output(self, f"{self.at}/maintenance/install.sh", self.at, "/to")


if __name__ == "__main__":
    unittest.main()
