"""maintenance/check_help.py compares the two texts that ./dmixlab answers with by itself."""
import os
import sys
import tempfile
import unittest

ROOT = os.path.join(os.path.dirname(os.path.abspath(__file__)), "..", "..")
sys.path.insert(0, f"{ROOT}/maintenance")
import check_help

SOURCE = """const HELP: &[u8] = b"usage: \\"a\\"
  b\\n";

pub(crate) fn version() -> &'static [u8]
    ensures { result.now }
{
    b"a 1\\n"
}
"""


class CheckHelp(unittest.TestCase):
    def setUp(self):
        self.room = tempfile.TemporaryDirectory()
        self.addCleanup(self.room.cleanup)
        self.write(check_help.SOURCE, SOURCE)
        self.write("docs/help.txt", 'usage: "a"\n  b\n')
        self.write("docs/version.txt", "a 1\n")

    def write(self, name, text):
        path = f"{self.room.name}/{name}"
        os.makedirs(os.path.dirname(path), exist_ok=True)
        with open(path, "w") as file:
            file.write(text)

    def test_the_program_s_own_texts_pass(self):
        self.assertEqual(check_help.check(self.room.name), [])
        self.assertEqual(check_help.check(ROOT), [])

    def test_another_or_a_missing_text_is_named(self):
        self.write("docs/help.txt", "usage: a\n")
        os.remove(f"{self.room.name}/docs/version.txt")
        self.assertEqual([it.split()[0] for it in check_help.check(self.room.name)], ["docs/help.txt", "docs/version.txt"])

    def test_the_files_can_be_written_anew(self):
        self.write(check_help.SOURCE, SOURCE.replace("a 1", "a 2"))
        check_help.check(self.room.name, writes=True)
        self.assertEqual(check_help.read(f"{self.room.name}/docs/version.txt"), "a 2\n")

    def test_a_text_that_is_not_found_is_a_fault(self):
        self.write(check_help.SOURCE, "fn f() {}\n")
        self.assertEqual(len(check_help.check(self.room.name)), 2)


if __name__ == "__main__":
    unittest.main()
