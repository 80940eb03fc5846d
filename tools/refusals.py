"""The table of refusals, tools/refusals.tsv, and the manual's tables that are made from it.

A row says of one WHY which commands print it, what it means, and what to do. Its group is `script` (of a script or a text of `refine`),
`wav`, `conf`, or `message` for the lines without a WHY. A WHY with a number has a letter for it, as `Tag T`."""
import os
import re

TABLE = os.path.join(os.path.dirname(os.path.abspath(__file__)), "refusals.tsv")
HEAD = ["of", "why", "given by", "means", "what to do"]
GROUPS = ("message", "script", "wav", "conf")
# the manual's tables without the column of the commands, which are the same in each row
WITHOUT_COMMANDS = ("wav", "conf")
BLOCK = re.compile(r"(<!-- refusals: begin (\w+) -->\n).*?(<!-- refusals: end -->)", re.S)


class Row:
    """What the table says of a refusal."""

    def __init__(self, cells):
        self.group, self.why, self.given_by, self.means, self.do = cells
        self.word = self.why.split()[0].rstrip(":")


def read_table(path=TABLE):
    """All rows in their order. A table of another form is a ValueError."""
    with open(path, encoding="utf-8") as file:
        lines = [line.rstrip("\n").split("\t") for line in file]
    if not lines or lines[0] != HEAD:
        raise ValueError(f"{path} doesn't begin with its head")
    for number, cells in enumerate(lines, 1):
        if len(cells) != len(HEAD) or "" in cells:
            raise ValueError(f"{path}, line {number}: {len(HEAD)} cells, each with a text")
        if number > 1 and cells[0] not in GROUPS:
            raise ValueError(f"{path}, line {number}: the group {cells[0]}")
    return [Row(cells) for cells in lines[1:]]


def row_of(group, word, rows=None):
    """The row of a refusal's first word, or None."""
    found = [it for it in (read_table() if rows is None else rows) if (it.group, it.word) == (group, word)]
    return found[0] if found else None


def manual_table(group, rows):
    """A group's table as the manual has it."""
    has_commands = group not in WITHOUT_COMMANDS
    first = "message" if group == "message" else "WHY"
    lines = [[first, "given by", "means", "what to do"]]
    lines += [[f"`{it.why}`", it.given_by, it.means, it.do] for it in rows if it.group == group]
    if not has_commands:
        lines = [[*cells[:1], *cells[2:]] for cells in lines]
    texts = [f"| {' | '.join(cells)} |\n" for cells in lines]
    return "".join([texts[0], "|---" * len(lines[0]) + "|\n", *texts[1:]])


def manual_with_tables(text, rows):
    """The manual's text with its tables of refusals made anew, each between its two marks."""
    return BLOCK.sub(lambda it: it[1] + manual_table(it[2], rows) + it[3], text)


def groups_in(text):
    """The groups whose tables a manual has."""
    return [it[2] for it in BLOCK.finditer(text)]
