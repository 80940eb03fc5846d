"""The wrapper, `make` and `make test` with the real rt, on a repository of two small crates. They take a processor minute or two."""
import os
import shutil
import subprocess
import tempfile
import unittest

ROOT = os.path.join(os.path.dirname(os.path.abspath(__file__)), "..", "..")

LOW = """//! What the small program does with numbers.
#![tactic(auto)]

ghost use Rattle.std.specs.Prelude.{◌≤◌};

/// The greater of two numbers.
pub fn greater(a: u8, b: u8) -> u8
    ensures { a ≤ result }
{
    if a < b { b } else { a }
}

#[cfg(test)]
mod tests {
    use super::greater;
    use std::test::Fail;

    #[test]
    fn three_is_greater_than_two(rt: HostRuntime) -> Result<(), Fail> {
        assert!(rt; greater(2, 3) == 3);
        Ok(())
    }
}
"""
# for `run SCRIPT OUT` it prints the text of each file that a line of SCRIPT names, and stores the last one as OUT.wav
PROGRAM = """//! A small program with the words of the real one.
#![tactic(auto)]

use low::greater;
use std::process::ExitCode;
use std::{env, fs, io};

fn work(rt: &HostRuntime) -> io::Result<u8> {
    let mut words = Vec::new(rt.alloc());
    for word in env::args(rt)?.skip(1) {
        words.push(word)?;
    }
    if words.len() < 3 {
        println!(rt; "few words")?;
        return Ok(greater(2, 1));
    }
    let script = fs::read_to_string(rt, words[1].as_str())?;
    for line in script.lines() {
        if let Some((_, rest)) = line.split_once(' ') {
            if let Some((_, name)) = rest.split_once(' ') {
                let text = fs::read_to_string(rt, name)?;
                println!(rt; "{text}")?;
                let out = format!(in rt.alloc(); "{}.wav", words[2])?;
                fs::write(rt, out.as_str(), text.as_str())?;
            }
        }
    }
    eprintln!(rt; "all was read")?;
    Ok(3)
}

fn main(rt: HostRuntime) -> ExitCode {
    ExitCode::from(work(&rt).unwrap_or(5))
}
"""
FILES = {
    "crates.txt": "low:\ndmixlab: low\n",
    "README.md": "Proved with `another-kit logic 0`.\n",
    "crates/low/src/lib.rt": LOW,
    "crates/dmixlab/src/main.rt": PROGRAM,
    "crates/dmixlab/args": "few\n",
    "crates/dmixlab/stdout": "few words\n",
    "crates/dmixlab/status": "2\n",
    "user/a.wav": "sound a\n",
    "user/in/b.wav": "sound b\n",
    "user/in/s": "client b b.wav\nclient a ../a.wav\n",
}


@unittest.skipUnless(shutil.which("rt"), "there is no rt on the path")
class RealRt(unittest.TestCase):
    @classmethod
    def setUpClass(cls):
        cls.room = tempfile.TemporaryDirectory()
        cls.addClassCleanup(cls.room.cleanup)
        cls.at = os.path.realpath(cls.room.name)
        for name, text in FILES.items():
            cls.write(name, text)
        for name in ("dmixlab", "Makefile"):
            shutil.copy(f"{ROOT}/{name}", cls.at)
        for name in ("tools", "maintenance"):
            shutil.copytree(f"{ROOT}/{name}", f"{cls.at}/{name}", ignore=shutil.ignore_patterns("tests", "__pycache__"))
        os.mkdir(f"{cls.at}/.git")
        # side by side, as each takes its time
        cls.tried = cls.start([f"{cls.at}/dmixlab", "run", "s", "o"], "user/in")
        cls.made, cls.tested = cls.start(["make"]), cls.start(["make", "test"])
        for it in (cls.tried, cls.made, cls.tested):
            it.out, it.said = it.communicate()

    @classmethod
    def write(cls, name, text):
        os.makedirs(os.path.dirname(f"{cls.at}/{name}"), exist_ok=True)
        with open(f"{cls.at}/{name}", "w", encoding="utf-8") as file:
            file.write(text)

    @classmethod
    def start(cls, words, folder="."):
        how = {"stdin": subprocess.DEVNULL, "stdout": subprocess.PIPE, "stderr": subprocess.PIPE, "text": True}
        variables = {it: value for it, value in os.environ.items() if it not in ("MAKEFLAGS", "MAKELEVEL", "MFLAGS")}
        return subprocess.Popen(words, cwd=f"{cls.at}/{folder}", env=variables, **how)

    def run_it(self, *words, folder="."):
        ran = self.start(words, folder)
        ran.out, ran.said = ran.communicate()
        return ran

    def test_a_run_is_answered_before_anything_is_built(self):
        self.assertEqual((self.tried.returncode, self.tried.out), (3, "sound b\n\nsound a\n\n"), self.tried.said)
        with open(f"{self.at}/user/in/o.wav") as file:
            self.assertEqual(file.read(), "sound a\n")
        said = self.tried.said.splitlines()
        self.assertEqual((said[0], len(said)), ("all was read", 2))
        self.assertIn("this was the unproved program", said[1])

    def test_make_proves_and_builds_the_program_and_keeps_what_it_proved(self):
        said = [*self.made.out.splitlines(), *self.made.said.splitlines()]
        self.assertEqual(self.made.returncode, 0, said)
        self.assertEqual(said[:3], ["[1/2] proving low", "[2/2] proving dmixlab", f"{self.at}/build/dmixlab is proved and built"])
        self.assertIn("README.md names another-kit logic 0", said[3])
        ran = self.run_it(f"{self.at}/dmixlab", "run", "s", "o", folder="user/in")
        self.assertEqual((ran.returncode, ran.said), (3, "all was read\n"))
        ran = self.run_it(f"{self.at}/dmixlab", "few")
        self.assertEqual((ran.returncode, ran.out), (2, "few words\n"))
        self.assertEqual(self.run_it("make").out.splitlines(), said[2:3])

    def test_what_is_not_proved_is_not_built(self):
        self.run_it("make")
        self.write("crates/low/src/lib.rt", FILES["crates/low/src/lib.rt"].replace("a < b", "b < a"))
        ran = self.run_it("make")
        self.write("crates/low/src/lib.rt", FILES["crates/low/src/lib.rt"])
        self.assertEqual((ran.returncode, ran.out), (2, "[1/2] proving low\n"))
        self.assertIn("proofs/greater/", ran.said)
        self.assertIn(f"low isn't proved. All that was said of it is in {self.at}/build/logs/low.log", ran.said)

    def test_tests_and_programs_are_run_without_a_proof(self):
        said = self.tested.out.splitlines()
        self.assertEqual((self.tested.returncode, said[-1]), (0, "2 passed, 0 failed"), said)


if __name__ == "__main__":
    unittest.main()
