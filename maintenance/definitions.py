#!/usr/bin/env python3
"""Tells what the words of public clauses mean, by the comments above their definitions.

    definitions.py                writes build/DEFINITIONS.md: each word, by crate and file
    definitions.py WORD..         prints these words, each with its file, and its note in docs/DEFINITIONS.md

A word is a definition that a clause of a public call cites, or one of which such a definition is made, as far down as that goes in
the crates of crates.txt. The comment above it in specs/ says what it means; above several definitions it is that of each of them. A
type of the code has its docstring in src/. A note is a row of a table in docs/DEFINITIONS.md whose first cell names the word in
backquotes, as `word` or, of one crate, as `crate::word`: of its section "Notes", or, for printed words alone, of the table of sources.

The status is 0, 2 where a WORD is none, and 5 where the page can't be written.
"""
from __future__ import annotations

import difflib
import glob
import os
import re
import sys

HERE = os.path.dirname(os.path.abspath(__file__))
ROOT = os.path.dirname(HERE)
sys.path.insert(0, HERE)
sys.path.insert(0, f"{ROOT}/tools")

import check_claims
import command
import crate_graph
from check_claims import text_of

GHOST_USE = re.compile(r"^\s*ghost use Rattle\.(\w+)\.specs\.(\S+?)(?:\.\{([^}]*)\}| as (\w+));", re.M)
USE = re.compile(r"^(?:pub )?use Rattle\.(\w+)\.specs\.(\S+?)\.\{([^}]*)\}()", re.M)
DEFINITION = re.compile(r"^(?:\w+ )*?pub (?:record |data )?([^\s(:]+)|^  pub (?:record|data) ([^\s(:]+)")
NO_DEFINITION = re.compile(r"^(?:\w+ )*?pub (?:mod|use)\b")
SECTION = re.compile(r"^-- ?--")
TYPE = re.compile(r"^\s*pub(?:\([^)]*\))? (?:struct|enum|trait|type) (\w+)")
TOKEN = re.compile(r"[\w◌∷≤≡+*/%^-]+")
HEAD = """# Definitions, word by word

Made by `maintenance/definitions.py` from the comments above the definitions; docs/DEFINITIONS.md says how to read it, and has the
notes. A word in bold is cited by a clause of a public call; the others are what such words are made of.
"""


class Definition:
    """One definition: its word, its crate, its file under crates/, its line, and its comment.

    `body` is the text of which it is made, without comments; it is empty for a type of the code.
    """

    def __init__(self, word, path, line, comment, body=""):
        self.word, self.path, self.line, self.comment, self.body = word, path, line, comment, body
        self.crate = path.split("/")[0]

    def place(self):
        """Its file with its line."""
        return f"crates/{self.path}:{self.line}"

    def notes_among(self, notes):
        """Its own of some notes: those of its word, and those of its word in its crate."""
        return notes.get(self.word, []) + notes.get(f"{self.crate}::{self.word}", [])


def comment_above(lines, number, mark):
    """The comment right above a line, as one text; attributes between both are passed."""
    found = []
    for line in reversed(lines[:number]):
        text = line.strip()
        if text.startswith(mark) and not SECTION.match(text):
            found = [text[len(mark):].strip(), *found]
        elif not text.startswith("#["):
            break
    return " ".join(filter(None, found))


def head_comment(text):
    """The comment at the top of a file of specs, without a list of its words."""
    found = re.match(r"(?:-- ?\S.*\n)*", text).group(0)
    return " ".join(line[2:].strip() for line in found.splitlines())


def definitions_in(path):
    """The public definitions of a file of specs, by word, in order.

    One without a comment of its own has that of the one before it, unless a section begins between both.
    """
    lines = text_of(f"{ROOT}/crates/{path}").split("\n")
    starts = [number for number, line in enumerate(lines) if DEFINITION.match(line) and not NO_DEFINITION.match(line)]
    found, comment, before = {}, "", 0
    for number, end in zip(starts, starts[1:] + [len(lines)]):
        has_section = any(SECTION.match(line) for line in lines[before:number])
        comment, before = comment_above(lines, number, "--") or ("" if has_section else comment), number
        word = "".join(filter(None, DEFINITION.match(lines[number]).groups()))
        body = "\n".join(line for line in lines[number:end] if not line.startswith("--"))
        found[word] = Definition(word, path, number + 1, comment, body)
    return found


def types_in(path):
    """The types of a file of the code, by name."""
    lines = text_of(f"{ROOT}/crates/{path}").split("\n")
    types = ((number, TYPE.match(line)) for number, line in enumerate(lines))
    return {it.group(1): Definition(it.group(1), path, n + 1, comment_above(lines, n, "///")) for n, it in types if it}


def imports_of(text, pattern, crates):
    """The crate, module and word of each definition that a file imports from the crates' specs, by its name in the file.

    A module that is imported as a whole has the word None.
    """
    names = {}
    for crate, module, listed, whole in pattern.findall(text):
        if crate in crates:
            pairs = [(it.split(" as ")[-1].strip(), it.split(" as ")[0].strip()) for it in listed.split(",") if it.strip()]
            names.update({name: (crate, module, word) for name, word in pairs})
            names.update({whole: (crate, module, None)} if whole else {})
    return names


def clauses_of(lines, first, indent):
    """The text of the clauses of a function whose head begins at a line."""
    texts, is_clause = [], False
    for line in lines[first + 1:]:
        if re.match(rf"^{indent}[{{}}]", line) or check_claims.FUNCTION.match(line):
            break
        is_clause = is_clause or bool(check_claims.CONTRACT.match(line))
        if is_clause and not line.strip().startswith("//"):
            texts.append(line)
    return " ".join(texts)


def public_clauses(text, exports):
    """The name and the text of the clauses of each public call of a file, where the crate hands on these names."""
    lines = text.split("\n")
    for owner, name, number, indent in check_claims.functions_of(lines):
        is_public = lines[number].lstrip().startswith("pub fn") or (owner and "trait " + owner in text)
        if is_public and (owner or name) in exports or check_claims.FOR_C.match(lines[number]):
            yield name, clauses_of(lines, number, indent)


class Words:
    """The definitions of some crates, and which of them public clauses stand on."""

    def __init__(self, crates):
        self.crates, self.files, self.types = crates, {}, {}
        for path in self.paths("specs", "antt"):
            text = text_of(f"{ROOT}/crates/{path}")
            self.files[path] = (definitions_in(path), imports_of(text, USE, crates), head_comment(text))
        for path in self.paths("src", "rt"):
            for name, it in types_in(path).items():
                self.types.setdefault((it.crate, name), it)

    def paths(self, folder, ending):
        """The crates' files of one ending, in the order of the crates."""
        for crate in self.crates:
            found = glob.glob(f"{ROOT}/crates/{crate}/{folder}/**/*.{ending}", recursive=True)
            yield from (os.path.relpath(it, f"{ROOT}/crates") for it in sorted(found))

    def find(self, crate, module, word):
        """The definition of an import, or None; a variant of a type of the code is explained where the type is."""
        parts = module.split(".")
        if parts[0] == "declared":
            return self.types.get((crate, parts[-2] if parts[-1] == "TheVariants" else parts[-1]))
        own, imports, _ = self.files.get(f"{crate}/specs/{'/'.join(parts)}.antt", ({}, {}, ""))
        return own.get(word) or (self.find(*imports[word]) if imports.get(word, (0, 0, None))[2] else None)

    def cited_by(self, text, imports):
        """The definitions that a text cites, by a file's imports."""
        tokens = [imports[it] for it in TOKEN.findall(text) if imports.get(it, (0, 0, None))[2]]
        parts = [(*imports[name][:2], word) for name, word in re.findall(r"\b(\w+)\.(\w+)", text) if name in imports]
        return [it for it in (self.find(*place) for place in tokens + parts) if it]

    def cited_in_clauses(self, crate):
        """The definitions that clauses of a crate's public calls cite, each with such a call."""
        root, found = f"{ROOT}/crates/{crate}/src/lib.rt", []
        exports = check_claims.exports_of(text_of(root)) if os.path.exists(root) else set()
        for path in sorted(glob.glob(f"{ROOT}/crates/{crate}/src/**/*.rt", recursive=True)):
            text = text_of(path)
            imports = imports_of(text, GHOST_USE, self.crates)
            found += [(it, call) for call, clauses in public_clauses(text, exports) for it in self.cited_by(clauses, imports)]
        return found

    def introduction(self, path):
        """The lines of what a file of specs says at its top, with an empty line after it."""
        said = self.files.get(path, ({}, {}, ""))[2]
        return [said, ""] if said else []

    def made_of(self, it):
        """The definitions of which one is made, without laws, whose names have a `-`: these are proofs of terms in it."""
        own, imports, _ = self.files.get(it.path, ({}, {}, ""))
        found = [own[token] for token in TOKEN.findall(it.body) if token in own] + self.cited_by(it.body, imports)
        return [it for it in found if "-" not in it.word]

    def needed(self):
        """The definitions on which public clauses stand, by crate, file and line, each with whether a clause cites it."""
        left = [it for crate in self.crates for it, _ in self.cited_in_clauses(crate)]
        cited, found = {id(it) for it in left}, {}
        while left:
            it = left.pop()
            if id(it) not in found:
                found[id(it)] = it
                left += self.made_of(it)
        order = sorted(found.values(), key=lambda it: (self.crates.index(it.crate), "/src/" in it.path, it.path, it.line))
        return [(it, id(it) in cited) for it in order]


def notes_in(text):
    """The words that the first cell of each table's row has in backquotes, each with the row's other cells."""
    notes = {}
    for cells in (line.split("|")[1:-1] for line in text.split("\n") if line.startswith("|")):
        for word in re.findall(r"`([^`]+)`", cells[0]):
            notes.setdefault(word, []).append("; ".join(it.strip() for it in cells[1:] if it.strip()))
    return notes


def page_of(words, notes):
    """The text of the page: each needed word with its comment and its notes, by crate and file; words of which the same is said are in
    one row."""
    text, at = [HEAD], ("", "", "")
    for it, is_cited in words.needed():
        name = f"**`{it.word}`**" if is_cited else f"`{it.word}`"
        said = " ".join(filter(None, [it.comment, *(f"(Note: {note})" for note in it.notes_among(notes))]))
        if at[0] != it.crate:
            text.append(f"\n## `{it.crate}`")
        if at[1] != it.path:
            text += ["", f"### `crates/{it.path}`", "", *words.introduction(it.path)]
        if at == (it.crate, it.path, said):
            text[-1] = text[-1].replace(": ", f", {name}: ", 1)
        else:
            text.append(f"- {name}: {said}")
        at = (it.crate, it.path, said)
    return "\n".join(text) + "\n"


def tell(words, word, notes):
    """Prints a word with its places, comments and notes."""
    every = [it for own, _, _ in words.files.values() for it in own.values()] + list(words.types.values())
    found = [it for it in every if it.word == word]
    if not found:
        near = difflib.get_close_matches(word, {it.word for it in every}, 1)
        raise command.Refused(f"{word!r} is no definition of a crate" + (f" (did you mean {near[0]}?)" if near else ""))
    for it in found:
        print(f"{word} ({it.place()}): {it.comment}")
        for note in it.notes_among(notes):
            print(f"    note: {note}")


def main():
    """Writes the page, or prints the words that are named."""
    reader = command.Words(__doc__)
    reader.add_argument("words", nargs="*", metavar="WORD", help="the words that are printed; none: the page is written")
    wanted, words = reader.parse_args().words, Words(list(crate_graph.read_lines(ROOT)))
    page = text_of(f"{ROOT}/docs/DEFINITIONS.md")
    for word in wanted:
        tell(words, word, notes_in(page))
    if not wanted:
        os.makedirs(f"{ROOT}/build", exist_ok=True)
        own = notes_in(page.partition("\n## Notes\n")[2])
        command.store(f"{ROOT}/build/DEFINITIONS.md", page_of(words, own).encode())
    return command.RIGHT


if __name__ == "__main__":
    command.run(main)
