"""That crates.txt is in the order of its crates' uses, and that docs/ARCHITECTURE.md has the same list."""
import os
import re
import sys
import unittest

HERE = os.path.dirname(os.path.abspath(__file__))
ROOT = os.path.dirname(os.path.dirname(HERE))
sys.path.insert(0, os.path.dirname(HERE))

import crate_graph


class List(unittest.TestCase):
    def setUp(self):
        self.uses = crate_graph.uses_of(crate_graph.read_lines(ROOT))

    def test_each_crate_stands_below_those_that_it_uses(self):
        names = list(self.uses)
        early = [name for name in names if any(names.index(it) > names.index(name) for it in self.uses[name])]
        self.assertEqual(early, [])

    def test_the_map_has_the_crates_in_the_same_order(self):
        with open(f"{ROOT}/docs/ARCHITECTURE.md", encoding="utf-8") as file:
            drawn = file.read().split("```")[1]
        names = [name for name in re.findall(r"\b(\w+)  +(?=\S)", drawn) if name in self.uses]
        self.assertEqual(names, list(self.uses))


if __name__ == "__main__":
    unittest.main()
