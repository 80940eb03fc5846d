"""maintenance/check_refusals.py compares the table of refusals with the program's sources and with the manual."""
import os
import shutil
import sys
import tempfile
import unittest

ROOT = os.path.realpath(os.path.join(os.path.dirname(os.path.abspath(__file__)), "..", ".."))
sys.path.insert(0, f"{ROOT}/maintenance")
import check_refusals
import refusals

FILES = (
    *("tools/refusals.tsv", "docs/SCRIPTS.md", "crates/lab_stop/src/stop.rt", "crates/lab_refine/src/params.rt", "crates/lab_refine/src/grammar.rt"),
    *(f"crates/lab_script/src/{it}.rt" for it in ("keys", "ops", "keyword")),
    *(f"crates/{it}/{name}" for it in ("lab_script", "asound_conf", "wav_io") for name in ("src/error.rt", "specs/ErrorText.antt")),
)


class CheckRefusals(unittest.TestCase):
    def setUp(self):
        self.room = tempfile.TemporaryDirectory()
        self.addCleanup(self.room.cleanup)
        for name in FILES:
            os.makedirs(os.path.dirname(f"{self.room.name}/{name}"), exist_ok=True)
            shutil.copy(f"{ROOT}/{name}", f"{self.room.name}/{name}")

    def change(self, name, text, other):
        """What is found where a text of a file is another one."""
        path = f"{self.room.name}/{name}"
        with open(path, encoding="utf-8") as file:
            old = file.read()
        self.assertIn(text, old)
        with open(path, "w", encoding="utf-8") as file:
            file.write(old.replace(text, other, 1))
        faults = check_refusals.check(self.room.name)
        with open(path, "w", encoding="utf-8") as file:
            file.write(old)
        return "\n".join(faults)

    def test_what_stands_passes(self):
        self.assertEqual(check_refusals.check(self.room.name), [])

    def test_a_new_cause_needs_a_row_and_a_name(self):
        faults = self.change("crates/lab_script/src/error.rt", "    Order,\n", "    Order,\n    Late,\n")
        self.assertIn("script: Late has no row in the table", faults)
        self.assertIn("aren't the same", faults)
        self.assertIn("aren't the same", self.change("crates/wav_io/specs/ErrorText.antt", 'codes "Tag"', 'codes "Tags"'))

    def test_a_cause_that_is_gone_or_has_a_number(self):
        faults = self.change("crates/asound_conf/src/error.rt", "    Deep,\n", "")
        self.assertIn("conf: Deep is in the table, and no cause of ConfWhy", faults)
        self.assertIn("script: Fit has a number", self.change("crates/lab_script/src/error.rt", "    Fit,\n", "    Fit(u32),\n"))

    def test_a_message_without_a_row(self):
        self.assertIn("message: ", self.change("crates/lab_stop/src/stop.rt", '"dmixlab: memory', '"dmixlab: room'))

    def test_a_manual_that_says_otherwise(self):
        self.assertIn("--write", self.change("docs/SCRIPTS.md", "the rate is 0 Hz", "the rate is none"))
        self.assertIn("between its marks", self.change("docs/SCRIPTS.md", "<!-- refusals: begin wav -->", ""))

    def test_the_manual_can_be_written_anew(self):
        with open(f"{self.room.name}/docs/SCRIPTS.md", encoding="utf-8") as file:
            old = file.read()
        with open(f"{self.room.name}/docs/SCRIPTS.md", "w", encoding="utf-8") as file:
            file.write(old.replace("the rate is 0 Hz", "the rate is none"))
        self.assertEqual(check_refusals.check(self.room.name, writes=True), [])
        with open(f"{self.room.name}/docs/SCRIPTS.md", encoding="utf-8") as file:
            self.assertEqual(file.read(), old)

    def test_a_table_of_another_form(self):
        self.assertIn("head", self.change("tools/refusals.tsv", "of\twhy", "why\tof"))
        self.assertIn("5 cells", self.change("tools/refusals.tsv", "\tthe rate is 0 Hz\t", "\t"))
        self.assertIn("the group wave", self.change("tools/refusals.tsv", "wav\tTag", "wave\tTag"))
        self.assertIn("script: Fit has two rows", self.change("tools/refusals.tsv", "script\tExtra", "script\tFit"))

    def test_other_keys_ranges_and_words(self):
        self.assertIn("keys of a card", self.change("crates/lab_script/src/keys.rt", "Takes::Number(64, 16_384)", "Takes::Number(64, 32_768)"))
        self.assertIn("calls of a client", self.change("crates/lab_script/src/ops.rt", '(b"delay", Form::Plain(Op::Delay)),', ""))
        self.assertIn("calls of a reader", self.change("crates/lab_script/src/ops.rt", "const STEPS: u32 = 1_000_000", "const STEPS: u32 = 1"))
        self.assertIn("words of the language", self.change("crates/lab_script/src/keyword.rt", 'b"end"', 'b"fin"'))
        self.assertIn("parameters", self.change("crates/lab_refine/src/params.rt", '"rate"', '"rates"'))
        self.assertIn("words that ask", self.change("crates/lab_refine/src/grammar.rt", 'b"near"', 'b"about"'))

    def test_sources_that_are_not_found(self):
        os.remove(f"{self.room.name}/crates/lab_script/src/error.rt")
        os.remove(f"{self.room.name}/tools/refusals.tsv")
        self.assertEqual(len(check_refusals.check(self.room.name)), 1)
        shutil.copy(f"{ROOT}/tools/refusals.tsv", f"{self.room.name}/tools/refusals.tsv")
        self.assertTrue(check_refusals.check(self.room.name))

    def test_the_manual_is_made_from_the_table(self):
        text = "a\n<!-- refusals: begin wav -->\nold\n<!-- refusals: end -->\nb\n"
        rows = [refusals.Row(["wav", "Tag T", "`run`", "no PCM", "convert it"]), refusals.Row(["conf", "Deep", "`conf`", "x", "y"])]
        made = refusals.manual_with_tables(text, rows)
        table = "| WHY | means | what to do |\n|---|---|---|\n| `Tag T` | no PCM | convert it |\n"
        self.assertEqual(made, f"a\n<!-- refusals: begin wav -->\n{table}<!-- refusals: end -->\nb\n")
        self.assertEqual(refusals.manual_with_tables(made, rows), made)


if __name__ == "__main__":
    unittest.main()
