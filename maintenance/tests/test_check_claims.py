"""What the check of docs/CLAIMS.md finds in a document and in a crate's source."""
import os
import sys
import unittest

HERE = os.path.dirname(os.path.abspath(__file__))
sys.path.insert(0, os.path.dirname(HERE))

import check_claims

DOCUMENT = """# What is proved

- a list above the crates; `ok`: as usual

## `ring`

A sentence; of the crate.

- `Ring::{put, take}`, `size`; `ok`, `-`: something,
  in two lines
- law; `Ring-law`: something

## Not a crate

- `a`; `b`: something
"""

SOURCE = """pub fn size(ring: &Ring) -> u32
    requires { 1 ≤ ring.now.frames }
    ensures { result ≡ ring.now.frames }
{
    ring.frames
}

fn without_clauses() -> u32 {
    2
}

    pub fn put(&mut self)
        requires room { record {
            frames = 1 } }
        ensures ok { OnOk result (self.new ≡ record {
            frames = 2 }) }
        ensures err { OnErr result (self.new ≡ self.old) }
    {
    }
""".split("\n")


class Document(unittest.TestCase):
    def test_an_item_has_calls_and_clauses(self):
        wanted = [("ring", ["Ring::put", "Ring::take", "size"], ["ok", "-"]), ("ring", ["law"], ["Ring-law"])]
        self.assertEqual(list(check_claims.rows_of(DOCUMENT)), wanted)

    def test_each_call_has_one_of_the_clauses_and_each_clause_is_at_one_of_the_calls(self):
        calls = {"put": ["ok"], "take": ["err"], "size": []}
        self.assertEqual(check_claims.faults_of("ring", ["put", "take"], ["ok", "err"], calls), ([], 2))
        self.assertEqual(check_claims.faults_of("ring", ["put", "size"], ["ok"], calls), (["size: ok"], 1))
        self.assertEqual(check_claims.faults_of("ring", ["put"], ["ok", "none"], calls), (["put: none"], 1))

    def test_a_clause_of_some_calls_isn_t_beside_one_of_all(self):
        calls = {"put": ["ok", "err"], "take": ["ok", "few"], "feed": ["err", "few"]}
        wanted = ["put: few, which others of its line have"]
        self.assertEqual(check_claims.faults_of("ring", ["put", "take"], ["ok", "few"], calls), (wanted, 3))
        self.assertEqual(check_claims.faults_of("ring", ["put", "take", "feed"], ["ok", "err", "few"], calls), ([], 6))


class Source(unittest.TestCase):
    def test_a_clause_without_a_name_is_a_dash(self):
        self.assertEqual(check_claims.clauses_of(SOURCE, 0, ""), ["-"])

    def test_a_body_ends_the_clauses(self):
        self.assertEqual(check_claims.clauses_of(SOURCE, 7, ""), [])

    def test_a_clause_of_several_lines_doesn_t_end_them(self):
        self.assertEqual(check_claims.clauses_of(SOURCE, 11, "    "), ["ok", "err"])

    def test_a_clause_of_one_line_isn_t_of_the_comment_below_it(self):
        lines = ["fn few()", "    ensures { Few result }", "", "    // More (of it.", "    ensures more { More result }", "{"]
        self.assertEqual([name for name, _ in check_claims.texts_of(lines, 0, "")], ["-", "more"])
        self.assertNotIn("More", check_claims.texts_of(lines, 0, "")[0][1])

    def test_the_text_of_a_clause_goes_on_to_the_next_one(self):
        names, texts = zip(*check_claims.texts_of(SOURCE, 11, "    "))
        self.assertEqual(names, ("ok", "err"))
        self.assertIn("frames = 2", texts[0])
        self.assertNotIn("Err", texts[0])

    def test_the_owner_is_the_type_and_not_the_trait(self):
        self.assertEqual(check_claims.owner_of("impl<'a, P: Port> MixPort for Seat<'a> {"), "Seat")
        self.assertEqual(check_claims.owner_of("pub trait Gate: Sized {"), "Gate")


SPECS = """use Rattle.port.specs.Uses.{CanUse, Left as Kept}

-- a call
pub record Calls {S : Type 0} (s t : Ring) (course : Course (Answered S))
    (Frame Cause : Type 0) : Type 0 where
  -- the way
  pub takes : Takes s t
  pub ring : t ≡ s
  pub keeps : Frame
  -- why
  pub causes : CanUse s
      → Cause

pub record Explains (s : Ring) : Type 0 where
  pub again : s ≡ s
  pub starts : Starts s × Kept s

-- a drain
abbrev pub Drains : Ring → Ring
    → Type 0
Drains s t = Calls s t (drain_course (P.view s) Nothing)
    (CanUse s → Kept s) (Explains s)

-- one of two
abbrev pub Either : Bool → Ring → Type 0
Either true s = Explains s
Either false s = Kept s
"""

USES = """pub record CanUse (s : Ring) : Type 0 where
  pub newer : s ≡ s

pub record Left (s : Ring) : Type 0 where
  pub rest : s ≡ s
"""


class Fields(unittest.TestCase):
    definitions = {**check_claims.definitions_of("ring.Calls", SPECS), **check_claims.definitions_of("port.Uses", USES)}
    names = check_claims.imports_of("ghost use Rattle.ring.specs.Calls.{Drains, Either, Explains as Why};")

    def fields(self, text, name="-"):
        return check_claims.with_fields([(name, f"ensures {{ {text} }}")], self.names, self.definitions)[1:]

    def test_a_clause_has_the_fields_of_its_record_and_each_field_those_of_its_own(self):
        self.assertEqual(self.fields("Drains s t"), ["takes", "ring", "keeps", "keeps.rest", "causes", "causes.again", "causes.starts"])
        self.assertEqual(self.fields("Why s", "why"), ["why.again", "why.starts"])

    def test_a_field_of_one_record_isn_t_one_of_another_beside_it(self):
        for name in ("ring.starts", "keeps.newer", "causes.newer", "takes.again", "keeps.again", "again"):
            self.assertNotIn(name, self.fields("Drains s t"))

    def test_a_premise_and_an_argument_and_a_part_give_no_fields(self):
        self.assertEqual(self.fields("Why s → (Why t → s ≡ t)"), [])
        self.assertEqual(self.fields("(n : ℕ) → Why s → Why t"), ["again", "starts"])
        for text in ("IfOk result (λ s. Why s)", "Why s × Why t", "λ s. Why s", "Either on s", "Explains s", "CanUse s"):
            self.assertEqual(self.fields(text), [], text)


CALLS = """impl<'a> Ring<'a> {
    pub fn put(&mut self, sample: i16)
        ensures put { HasPut self.old self.new sample }
    {
    }

    pub fn fill(
        &self,
        out: &'a mut [i16],
    ) -> usize
        ensures { IsFilled out.new }
    {
        0
    }

    pub fn len(&self) -> usize
        ensures { result ≡ length self.now }
    {
        0
    }

    pub fn words(&self) -> &mut [u64]
        ensures { IsPart result }
    {
        0
    }

    pub fn touch(&mut self) {
    }

    fn clear(&mut self)
        ensures { self.new ≡ [] }
    {
    }
}

pub fn inner(ring: &mut Ring)
    ensures { ring.new ≡ [] }
{
}

#[unsafe(no_mangle)]
pub extern "C" fn ring_free(
    alloc: Global,
    ring: &mut Handle,
) -> i64
    ensures { Closes ring.old ring.new result }
{
    0
}
""".split("\n")


class Calls(unittest.TestCase):
    def test_a_public_call_changes_a_value_that_it_takes_by_a_mutable_reference(self):
        self.assertEqual(list(check_claims.changing_calls(CALLS, {"Ring"})), ["Ring::put", "Ring::fill", "ring_free"])

    def test_a_function_that_the_root_file_doesn_t_hand_on_isn_t_public(self):
        self.assertEqual(list(check_claims.changing_calls(CALLS, {"inner"})), ["inner", "ring_free"])

    def test_a_function_that_c_calls_is_public(self):
        self.assertEqual(list(check_claims.changing_calls(CALLS, set())), ["ring_free"])


class Whole(unittest.TestCase):
    def test_a_call_without_a_line_is_found(self):
        self.assertEqual(check_claims.unlisted_of("card_player", {"CardPlayer::play"})[0], "CardPlayer::take_frame")

    def test_a_clause_that_isn_t_there_is_not_found(self):
        calls = check_claims.calls_of("lap_word")
        self.assertTrue(check_claims.is_there("lap_word", "clamp", "nearest", calls))
        self.assertFalse(check_claims.is_there("lap_word", "clamp", "farthest", calls))
        self.assertFalse(check_claims.is_there("mix_core", "law", "no-such-law", {}))
        self.assertTrue(check_claims.is_there("mix_core", "law", "IsReply-one", {}))

    def test_a_field_is_at_the_calls_whose_clause_has_it(self):
        calls = check_claims.calls_of("dmix_client")
        for call, clause in (("drain", "causes.starts"), ("pause", "causes.pauses"), ("writei", "starts")):
            self.assertTrue(check_claims.is_there("dmix_client", f"Client::{call}", clause, calls), clause)
        for clause in ("ring.starts", "takes.again", "keeps.syncs", "refused.again", "starts"):
            self.assertFalse(check_claims.is_there("dmix_client", "Client::drain", clause, calls), clause)
        self.assertFalse(check_claims.is_there("dmix_client", "Client::pause", "keeps.newer", calls))
        self.assertFalse(check_claims.is_there("lab_input", "read_input", "script.apart", check_claims.calls_of("lab_input")))


if __name__ == "__main__":
    unittest.main()
