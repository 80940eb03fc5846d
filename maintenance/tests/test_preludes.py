"""What a crate's Prelude passes on, and that a second run changes nothing."""
import os
import sys
import tempfile
import unittest

HERE = os.path.dirname(os.path.abspath(__file__))
sys.path.insert(0, os.path.dirname(HERE))

import preludes

LIB = "pub mod Places\npub mod Rings\n"
PLACES = "-- Places.\nunfoldable pub next_place : ℕ → ℕ\nnext_place n = n + 1\n"
PASSING = "pub use Rattle.base.specs.Places.{next_place}\n"


def proof_of(number):
    """A proof that cites names of three modules, and unfolds one of them."""
    return f"""-- The proof of case {number}.
use Rattle.base.specs.Places.{{next_place}}
use Rattle.base.specs.declared.place.Place.{{Place}}
use Rattle.base.specs.declared.place.Kind.TheVariants as kind
use Rattle.ring.specs.Rings.{{slots, ◌⊕◌}}
use Rattle.ring.proofs.Lemmas.{{slot-next}}
use Rattle.ring.proofs.case_{number}.Goals as goal

pub slot : goal.slot
unfolding next_place
slot = slot-next
"""


class Preludes(unittest.TestCase):
    """Each test has a repository of two crates, with proofs in the upper one."""

    def setUp(self):
        room = tempfile.TemporaryDirectory()
        self.addCleanup(room.cleanup)
        self.root = room.name
        self.put("crates.txt", "base:\nring: base\n")
        self.put("crates/base/specs/Places.antt", PLACES)
        self.put("crates/ring/specs/Lib.antt", LIB)
        for number in range(9):
            self.put(f"crates/ring/proofs/case_{number}/Answers.antt", proof_of(number))

    def put(self, path, text):
        """Writes a file of the repository."""
        os.makedirs(os.path.dirname(f"{self.root}/{path}"), exist_ok=True)
        preludes.write(f"{self.root}/{path}", text)

    def text(self, path):
        """The text of a file of the upper crate."""
        return preludes.read(f"{self.root}/crates/ring/{path}")

    def imports(self, number):
        """The use lines of a proof."""
        return [line for line in self.text(f"proofs/case_{number}/Answers.antt").split("\n") if line.startswith("use ")]

    def run_once(self):
        """Writes the upper crate's Prelude, and gives its lines."""
        preludes.Crate(preludes.Modules(self.root), "ring").write()
        return self.text("specs/Prelude.antt").split("\n")[1:-1]

    def test_passes_on_what_proofs_cite(self):
        self.assertEqual(self.run_once(), [
            "pub use Rattle.base.specs.declared.place.Place.{Place}",
            "unfoldable pub use Rattle.base.specs.Places.{next_place}",
            "pub use Rattle.ring.specs.Rings.{slots, ◌⊕◌}",
        ])
        self.assertEqual(self.text("specs/Lib.antt"), "pub mod Places\npub mod Prelude\npub mod Rings\n")

    def test_keeps_other_imports_direct(self):
        self.run_once()
        self.assertEqual(self.imports(3), [
            "use Rattle.ring.specs.Prelude.{Place, next_place, slots, ◌⊕◌}",
            "use Rattle.ring.proofs.Lemmas.{slot-next}",
            "use Rattle.base.specs.declared.place.Kind.TheVariants as kind",
            "use Rattle.ring.proofs.case_3.Goals as goal",
        ])

    def test_changes_nothing_at_a_second_run(self):
        self.run_once()
        before = [self.text(f"proofs/case_{number}/Answers.antt") for number in range(9)]
        self.assertEqual(self.run_once(), self.run_once())
        self.assertEqual([self.text(f"proofs/case_{number}/Answers.antt") for number in range(9)], before)

    def test_knows_what_another_module_passes_on(self):
        self.put("crates/base/specs/Words.antt", PASSING)
        self.put("crates/ring/proofs/case_0/Answers.antt", proof_of(0).replace("base.specs.Places", "base.specs.Words"))
        self.run_once()
        self.assertEqual(self.imports(0)[0], self.imports(1)[0])

    def test_leaves_the_rarer_of_two_names_spelled_alike(self):
        other = "use Rattle.base.specs.Slots.{slots}\nuse Rattle.ring.specs.Rings.{◌⊕◌}"
        for number in range(2):
            text = proof_of(number).replace("use Rattle.ring.specs.Rings.{slots, ◌⊕◌}", other)
            self.put(f"crates/ring/proofs/case_{number}/Answers.antt", text)
        self.run_once()
        self.assertIn("use Rattle.base.specs.Slots.{slots}", self.imports(1))

    def test_goes_where_few_proofs_are_left(self):
        self.run_once()
        for number in range(2, 9):
            os.remove(f"{self.root}/crates/ring/proofs/case_{number}/Answers.antt")
        self.assertEqual(self.run_once(), [])
        self.assertEqual(self.text("specs/Lib.antt"), LIB)
        self.assertIn("use Rattle.ring.specs.Rings.{slots, ◌⊕◌}", self.imports(0))


if __name__ == "__main__":
    unittest.main()
