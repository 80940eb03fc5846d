"""What the check of docs/LIBRARY.md finds."""
import os
import sys
import unittest

HERE = os.path.dirname(os.path.abspath(__file__))
sys.path.insert(0, os.path.dirname(HERE))

import check_library

TEXT = """## Three callers

`one.rt`: the first.

    let a = 1;

    if a > 0 {
        go(a);
    }

and then

    stop();

## Another

    let b = 2;
""".split("\n")

FIRST_MIX = "crates/first_mix/src/main.rt"


def manual():
    """The document, and its lines."""
    return check_library.read("docs/LIBRARY.md")


class Pieces(unittest.TestCase):
    def test_a_piece_is_of_the_file_that_is_named_last(self):
        lines = check_library.section_of("\n".join(TEXT), "Three callers")
        wanted = [("one.rt", ["let a = 1;", "", "if a > 0 {", "    go(a);", "}"]), ("one.rt", ["stop();"])]
        self.assertEqual(list(check_library.pieces_of(lines)), wanted)

    def test_a_piece_has_a_part_between_empty_lines(self):
        self.assertEqual(check_library.paragraphs_of(["a", "b", "", "c"]), [["a", "b"], ["c"]])

    def test_a_piece_is_found_at_any_indentation(self):
        file = ["fn f() {", "    let a = 1;", "    stop();", "}"]
        self.assertTrue(check_library.has_piece(file, ["let a = 1;", "stop();"]))

    def test_a_piece_with_another_word_or_a_gap_isn_t_found(self):
        file = ["fn f() {", "    let a = 1;", "    go(a);", "    stop();", "}"]
        self.assertFalse(check_library.has_piece(file, ["let a = 2;"]))
        self.assertFalse(check_library.has_piece(file, ["let a = 1;", "stop();"]))


class Signatures(unittest.TestCase):
    def test_what_the_document_leaves_out_is_left_out(self):
        head = "( &mut self, port: &mut P, gate: &mut G, samples: &[i16], ) -> Result<u32, PcmError>"
        self.assertEqual(check_library.signature_of(head), "(samples: &[i16]) -> Result<u32>")

    def test_a_signature_has_no_lifetime_no_comment_and_no_brace(self):
        head = "(&mut self, seat: MixSeat<'a>) -> u64 // the frame {"
        self.assertEqual(check_library.signature_of(head), "(seat: MixSeat) -> u64")
        self.assertEqual(check_library.signature_of("(&'a self) {"), "()")

    def test_another_error_is_kept(self):
        head = "(alloc: Global, wav: &Wav) -> Result<Vec<u8>, WavError>"
        self.assertEqual(check_library.signature_of(head), "(wav: &Wav) -> Result<Vec<u8>, WavError>")

    def test_type_parameters_are_no_part(self):
        lines = ["    pub fn go<F: Fn(u8), G>(", "        &self,", "        at: u8,", "    ) -> u8", "        requires { at }"]
        self.assertEqual(check_library.head_at(lines, 0, "go"), "( &self, at: u8, ) -> u8")

    def test_a_comma_within_brackets_parts_nothing(self):
        self.assertEqual(check_library.parts_of("a: (u8, u8), b: Map<u8, u8>, "), ["a: (u8, u8)", "b: Map<u8, u8>"])


class Types(unittest.TestCase):
    types = {"Place": [("other", "    pub x: u8,\n"), ("ring", "    /// Where.\n    pub x: u8,\n    pub ghost low: { x },\n    pub y: u8,\n")],
             "Fault": [("ring", "    /// Full.\n    Full,\n    Late { seen: u64 },\n    Twice(u32),\n")],
             "Refusal": [("ring", "    pub line: u32,\n    pub why: Fault,\n")]}

    def test_all_fields_are_given_in_their_order(self):
        self.assertEqual(list(check_library.field_faults(["    Place { x: u8, y: u8 }   // frames"], self.types)), [])
        for line in ("Place { y: u8, x: u8 }", "Place { y: u8 }", "Place { x: u8, y: u16 }", "Spot { x: u8 }"):
            self.assertEqual(len(list(check_library.field_faults([f"    {line}"], self.types))), 1, line)

    def faults(self, row):
        return list(check_library.error_faults(["| type of crate | answered by | values |", "|---|---|---|", row], self.types))

    def test_all_values_of_a_type_are_named(self):
        self.assertEqual(self.faults("| `Fault` of `ring` | calls | `Full`, `Late`, `Twice`; `code` |"), [])
        self.assertEqual(self.faults("| `Fault` of `ring` | calls | `Full`, `Late` |"), ["other values: Fault"])
        self.assertEqual(self.faults("| `Fault` of `ring` | calls | `Full`, `Late`, `Twice`, `Lost` |"), ["other values: Fault"])

    def test_a_row_may_name_no_value_or_the_cause(self):
        self.assertEqual(self.faults("| `Fault` of `ring` | calls | as said above |"), [])
        self.assertEqual(self.faults("| `Refusal` of `ring` | calls | a line, and a `Fault` |"), [])
        self.assertEqual(self.faults("| `Refusal` of `ring` | calls | `Full`, `Late`, `Twice` |"), [])
        self.assertEqual(self.faults("| `Refusal` of `ring` | calls | `Full` |"), ["other values: Refusal"])

    def test_an_unknown_type_is_a_fault(self):
        self.assertEqual(self.faults("| `Lost` of `ring` | calls | none |"), ["other values: Lost"])


class Whole(unittest.TestCase):
    def faults_after(self, old, new):
        """What is found once a text of the document is another one."""
        text = manual()
        self.assertIn(old, text)
        return list(check_library.faults_of(text.replace(old, new, 1)))

    def test_the_manual_has_the_code_of_the_crates(self):
        self.assertEqual(list(check_library.faults_of(manual())), [])

    def test_another_program_line_or_number_is_found(self):
        self.assertEqual(self.faults_after("let mut turn", "let turn"), [f"{FIRST_MIX} is another program"])
        self.assertEqual(self.faults_after("`first_mix: mix_core", "`first_mix: sum_table"), ["crates.txt doesn't have: first_mix: sum_table snd_base"])
        self.assertEqual(self.faults_after("sums 60,", "sums 61,"), ["crates/first_mix is to print 60 32767 -32768 5 0"])

    def test_another_caller_is_found(self):
        self.assertEqual(self.faults_after("client.can_offer(samples)", "client.can_offer(all)"), ["two_clients.rt doesn't have: fn write("])

    def test_another_bound_of_a_geometry_is_found(self):
        self.assertEqual(self.faults_after("frames < 64", "frames < 65"), ["not tested: 64", "no bound: 65"])

    def test_each_signature_of_a_row_is_compared(self):
        self.assertEqual(self.faults_after("`count(word: u64) -> u8`", "`count(word: u64) -> u32`"), ["no signature: `count(word: u64) -> u32`"])

    def test_another_crate_signature_test_or_call_is_found(self):
        self.assertEqual(self.faults_after("| `wav_io` |", "| `wav_oi` |"), ["no crate: wav_oi"])
        self.assertEqual(self.faults_after("my_player: dmix_client", "my_player: dmix_clients"), ["no crate: dmix_clients"])
        self.assertEqual(self.faults_after("Core::turn(member: u32)", "Core::turn(member: u64)"), ["no signature: `Core::turn(member: u64) -> Turn`"])
        self.assertEqual(self.faults_after("past `seen` | `can_place` |", "past `seen` | `could_place` |"), ["no test: could_place"])
        self.assertEqual(self.faults_after("`Table::can_new`", "`Table::may_new`"), ["no call: Table::may_new"])


if __name__ == "__main__":
    unittest.main()
