"""Which words public clauses stand on, what explains them, and what the check of docs/DEFINITIONS.md asks for."""
import contextlib
import io
import os
import sys
import tempfile
import unittest

HERE = os.path.dirname(os.path.abspath(__file__))
sys.path.insert(0, os.path.dirname(HERE))

import check_claims
import check_definitions
import definitions

WORDS = """-- The words of a ring.
--     IsWord      a list of words, which the page leaves out
use Rattle.base.specs.Places.{IsPlace}
use Rattle.std.specs.Prelude.{ℕ}

-- a word has
-- a place
abbrev pub IsWord : ℕ → Type 0
IsWord n = IsPlace n

abbrev pub IsKept : ℕ → Type 0
IsKept n = IsWord n

-- no clause stands on this
abbrev pub IsUnused : ℕ → Type 0
IsUnused n = IsWord n
"""

PLACES = """-- Places.
use Rattle.std.specs.Prelude.{ℕ}

-- a place is one of eight
pub record IsPlace (n : ℕ) : Type 0 where
  pub below : n < 8

-- ---- beside them
pub IsBeside : ℕ → Type 0
IsBeside n = IsPlace n
"""

SOURCE = """ghost use Rattle.std.specs.Prelude.{All};
ghost use Rattle.ring.specs.Words.{IsWord, IsKept as WordIsKept, IsUnused};
ghost use Rattle.ring.specs.declared.ring.Kind.TheVariants.{Whole};

/// A kind of ring.
///
/// There is one.
#[derive(Clone)]
pub enum Kind {
    Whole,
}

/// A call.
pub fn take(ring: &mut Ring) -> u64
    // of IsUnused
    requires { WordIsKept ring.old.words }
    ensures { ring.old.kind = Whole }
{
    0
}

pub fn inner(ring: &Ring) -> u64
    ensures { IsUnused ring.now }
{
    0
}
"""

FILES = {
    "base/specs/Places.antt": PLACES,
    "base/src/lib.rt": "",
    "ring/specs/Words.antt": WORDS,
    "ring/src/lib.rt": "mod ring;\npub use ring::{take, Ring};\n",
    "ring/src/ring.rt": SOURCE,
}
NOTES = """| words | note |
|---|---|
| `IsWord`, `IsPlace` | eight of them |
"""


class Repository(unittest.TestCase):
    def setUp(self):
        folder = tempfile.TemporaryDirectory()
        self.addCleanup(folder.cleanup)
        for path, text in FILES.items():
            path = f"{folder.name}/crates/{path}"
            os.makedirs(os.path.dirname(path), exist_ok=True)
            with open(path, "w", encoding="utf-8") as file:
                file.write(text)
        for module in (definitions, check_claims):
            self.addCleanup(setattr, module, "ROOT", module.ROOT)
            module.ROOT = folder.name
        self.words = definitions.Words(["base", "ring"])


class Words(Repository):
    def test_a_clause_cites_what_its_file_imports_by_whichever_name(self):
        cited = {(it.word, call) for it, call in self.words.cited_in_clauses("ring")}
        self.assertEqual(cited, {("IsKept", "take"), ("Kind", "take")})

    def test_needed_are_cited_words_and_what_they_are_made_of(self):
        needed = [(it.word, is_cited) for it, is_cited in self.words.needed()]
        self.assertEqual(needed, [("IsPlace", False), ("IsWord", False), ("IsKept", True), ("Kind", True)])

    def test_a_comment_explains_each_definition_up_to_the_next_one(self):
        comments = {it.word: it.comment for it, _ in self.words.needed()}
        self.assertEqual(comments["IsWord"], "a word has a place")
        self.assertEqual(comments["IsKept"], "a word has a place")
        self.assertEqual(comments["Kind"], "A kind of ring. There is one.")

    def test_a_section_explains_nothing(self):
        self.assertEqual(self.words.find("base", "Places", "IsBeside").comment, "")

    def test_a_word_has_its_file_and_line(self):
        self.assertEqual(self.words.find("ring", "Words", "IsWord").place(), "crates/ring/specs/Words.antt:8")


class Page(Repository):
    def test_the_page_has_each_needed_word_once(self):
        page = definitions.page_of(self.words, {})
        self.assertIn("### `crates/ring/specs/Words.antt`\n\nThe words of a ring.\n\n- `IsWord`, **`IsKept`**: a word has a place\n", page)
        self.assertIn("### `crates/ring/src/ring.rt`\n\n- **`Kind`**: A kind of ring. There is one.\n", page)
        self.assertNotIn("IsUnused", page)
        self.assertNotIn("leaves out", page)

    def test_a_note_stands_behind_the_comment_of_its_word(self):
        page = definitions.page_of(self.words, definitions.notes_in(NOTES))
        self.assertIn("- `IsWord`: a word has a place (Note: eight of them)\n- **`IsKept`**: a word has a place\n", page)

    def test_told_is_the_comment_and_the_note_of_a_word(self):
        told = io.StringIO()
        with contextlib.redirect_stdout(told):
            definitions.tell(self.words, "IsWord", definitions.notes_in(NOTES))
        self.assertEqual(told.getvalue(), "IsWord (crates/ring/specs/Words.antt:8): a word has a place\n    note: eight of them\n")

    def test_a_word_that_no_crate_defines_is_refused_with_the_nearest(self):
        with self.assertRaises(definitions.command.Refused) as refused:
            definitions.tell(self.words, "IsWort", {})
        self.assertEqual(str(refused.exception), "'IsWort' is no definition of a crate (did you mean IsWord?)")


class Check(Repository):
    def test_a_word_without_a_comment_needs_a_note(self):
        bare = definitions.Definition("IsBare", "ring/specs/Words.antt", 3, "")
        self.assertEqual(check_definitions.unexplained([(bare, "take")], {}), ["crates/ring/specs/Words.antt:3: IsBare, at take"])
        self.assertEqual(check_definitions.unexplained([(bare, "take")], {"IsBare": ["a note"]}), [])

    def test_a_note_is_of_a_definition(self):
        self.assertEqual(check_definitions.strangers(self.words, definitions.notes_in(NOTES)), [])
        self.assertEqual(check_definitions.strangers(self.words, {"IsNone": ["a note"], "Kind": ["one"]}), ["IsNone"])

    def test_a_note_may_be_of_a_word_of_one_crate(self):
        notes = {"base::IsPlace": ["a note"], "ring::IsPlace": ["another one"]}
        self.assertEqual(check_definitions.strangers(self.words, notes), ["ring::IsPlace"])
        self.assertEqual(self.words.find("base", "Places", "IsPlace").notes_among(notes), ["a note"])


if __name__ == "__main__":
    unittest.main()
