"""That the documents' links lead somewhere, that their lines can be read in an editor, and that README stays short."""
import glob
import os
import re
import unittest

HERE = os.path.dirname(os.path.abspath(__file__))
ROOT = os.path.dirname(os.path.dirname(HERE))
MOST_COLUMNS, MOST_LINES, MOST_WORDS = 140, 150, 1500


def text_of(path):
    """The text of a file."""
    with open(path, encoding="utf-8") as file:
        return file.read()


def anchor_of(heading):
    """The anchor that a heading has where Markdown is shown."""
    return re.sub(r"[^\w\- ]", "", heading.strip().lower()).replace(" ", "-")


def lost_links(path):
    """The links of a document to files and headings that there aren't."""
    for link in re.findall(r"\]\((?!\w+:)([^)\s]+)\)", text_of(path)):
        name, _, anchor = link.partition("#")
        target = os.path.normpath(os.path.join(os.path.dirname(path), name)) if name else path
        if not os.path.exists(target):
            yield link
        elif anchor and anchor not in [anchor_of(it) for it in re.findall(r"^#+ (.*)$", text_of(target), re.M)]:
            yield link


class Documents(unittest.TestCase):
    def setUp(self):
        self.paths = sorted(glob.glob(f"{ROOT}/*.md") + glob.glob(f"{ROOT}/docs/*.md"))

    def test_each_link_leads_somewhere(self):
        self.assertEqual([(os.path.basename(path), link) for path in self.paths for link in lost_links(path)], [])

    def test_lines_are_short_but_for_tables(self):
        lines = [(os.path.basename(path), line) for path in self.paths for line in text_of(path).split("\n")]
        self.assertEqual([it for it in lines if len(it[1]) > MOST_COLUMNS and not it[1].startswith("|")], [])

    def test_readme_is_short(self):
        text = text_of(f"{ROOT}/README.md")
        self.assertLessEqual(len(text.splitlines()), MOST_LINES)
        self.assertLessEqual(len(text.split()), MOST_WORDS)


if __name__ == "__main__":
    unittest.main()
