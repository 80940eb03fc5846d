"""Which words tools/dmixlab.bash offers."""
import os
import shlex
import subprocess
import tempfile
import unittest

SCRIPT = os.path.join(os.path.dirname(os.path.abspath(__file__)), "..", "dmixlab.bash")


class Completion(unittest.TestCase):
    def offered(self, *words):
        """What is offered for the last of some words, in a folder with these files."""
        with tempfile.TemporaryDirectory() as folder:
            os.mkdir(f"{folder}/out")
            with open(f"{folder}/my.conf", "w") as file:
                file.write("pcm.!default { type dmix }\n# pcm.none\npcm.shared.type dsnoop\npcm.shared.slave.rate 8000\n")
            for name in ("old.wav", "a b.script"):
                open(f"{folder}/{name}", "w").close()
            # (compopt is a command of a completion alone)
            text = f"""compopt() {{ :; }}
                source {shlex.quote(os.path.abspath(SCRIPT))}
                COMP_WORDS=({shlex.join(["dmixlab", *words])})
                COMP_CWORD={len(words)}
                _dmixlab
                printf '%s\\n' "${{COMPREPLY[@]}}"
            """
            ran = subprocess.run(["bash", "-c", text], cwd=folder, capture_output=True, text=True)
            self.assertEqual(ran.stderr, "")
            return {line for line in ran.stdout.splitlines() if line}

    def test_commands(self):
        self.assertEqual(self.offered(""), {"run", "check", "refine", "conf", "make", "--help", "--version"})
        self.assertEqual(self.offered("re"), {"refine"})

    def test_files_where_files_go(self):
        for words in (("run",), ("check",), ("check", "a b.script"), ("refine",), ("conf",)):
            self.assertEqual(self.offered(*words, ""), {"out", "my.conf", "old.wav", "a b.script"})
        self.assertEqual(self.offered("run", "a"), {"a b.script"})

    def test_an_output_without_its_ending(self):
        self.assertEqual(self.offered("run", "a b.script", "o"), {"out", "old"})
        self.assertEqual(self.offered("check", "a b.script", "my.report", "o"), {"out", "old"})

    def test_the_devices_of_a_configuration(self):
        self.assertEqual(self.offered("conf", "my.conf", ""), {"default", "shared"})
        self.assertEqual(self.offered("conf", "my.conf", "s"), {"shared"})

    def test_nothing_behind_a_whole_command(self):
        for words in (("--help", ""), ("refine", "my.conf", ""), ("make", ""), ("run", "a", "b", ""), ("check", "a", "b", "c", ""), ("conf", "my.conf", "shared", "")):
            self.assertEqual(self.offered(*words), set())


if __name__ == "__main__":
    unittest.main()
