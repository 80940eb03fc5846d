#!/usr/bin/env python3
"""Checks docs/LIBRARY.md against the code.

    check_library.py

- The whole program is a file of the repository, word for word, its line is in crates.txt, and it is to print the named numbers.
- Each piece of code under "Three callers" is in the file of crates/examples/src that the text names before it, line by line.
- Each crate of a table and of the line to add is in crates.txt, and each call and test that the text names is one of a crate.
- The function under "Numbers of the run" tests the bounds of a geometry.
- Each signature, each type's fields, and the values of each type of errors are those of the code.

The status is 0 where all is as it should be, and otherwise 1.
"""
from __future__ import annotations

import glob
import os
import re
import sys
import textwrap

HERE = os.path.dirname(os.path.abspath(__file__))
ROOT = os.path.dirname(HERE)
sys.path.insert(0, HERE)
sys.path.insert(0, f"{ROOT}/tools")

import check_claims
import command

# what the signatures of the document leave out
LEFT_OUT = ("self", "&self", "&mut self", "mut self", "alloc", "port", "gate")


def read(path):
    """The text of a file of the repository."""
    return check_claims.text_of(f"{ROOT}/{path}")


def section_of(text, title):
    """The lines of a document's section."""
    lines = text.split("\n")
    first = lines.index(f"## {title}") + 1
    last = next((k for k in range(first, len(lines)) if lines[k].startswith("## ")), len(lines))
    return lines[first:last]


def rows_of(lines):
    """The cells of each row of the tables among some lines."""
    rows = [[cell.strip() for cell in line.strip("|").split("|")] for line in lines if line.startswith("|")]
    return [row for row in rows if not row[0].startswith("---")]


def pieces_of(lines):
    """Each indented piece of code, empty lines within it too, with the file that the text names last before it."""
    file, piece = None, []
    for line in lines + ["."]:
        if line.startswith("    ") or (piece and not line):
            piece.append(line)
            continue
        if piece:
            yield file, textwrap.dedent("\n".join(piece).strip("\n")).split("\n")
            piece = []
        named = re.search(r"`([\w/]+\.rt)`", line)
        file = named.group(1) if named else file


def paragraphs_of(piece):
    """The parts of a piece of code between its empty lines."""
    return [part.split("\n") for part in "\n".join(piece).split("\n\n")]


def has_piece(lines, piece):
    """Whether these lines follow one another in a file, at one indentation."""
    for first in range(len(lines) - len(piece) + 1):
        window = textwrap.dedent("\n".join(lines[first:first + len(piece)])).split("\n")
        if window == piece:
            return True
    return False


def program_faults(lines):
    """What of the whole program isn't as the repository has it."""
    for file, piece in pieces_of(lines):
        crate = file.split("/")[1]
        if "\n".join(piece) + "\n" != read(file):
            yield f"{file} is another program"
        line = next((it for it in re.findall(r"`([^`]+)`", " ".join(lines)) if it.startswith(f"{crate}: ")), f"{crate}:")
        if line not in read("crates.txt").split("\n"):
            yield f"crates.txt doesn't have: {line}"
        told = next((it for it in lines if it.startswith("It prints")), "").split(" of ")[0]
        printed = [it.split()[-1] for it in read(f"crates/{crate}/stdout").splitlines()]
        if re.findall(r"-?\d+", told) != printed:
            yield f"crates/{crate} is to print {' '.join(printed)}"


def caller_faults(lines):
    """The pieces of code that the crate `examples` doesn't have."""
    for file, piece in pieces_of(lines):
        for part in paragraphs_of(piece):
            if file is None or not has_piece(read(f"crates/examples/src/{file}").split("\n"), part):
                yield f"{file} doesn't have: {part[0]}"


def named_crates(text):
    """The crates that the tables, and the line to add, name."""
    for row in rows_of(section_of(text, "Which crate for what")):
        yield from re.findall(r"`(\w+)`", row[0])
    for row in rows_of(section_of(text, "Errors")):
        yield from re.findall(r"of `(\w+)`", row[0])
    for _, piece in pieces_of(section_of(text, "To begin")):
        yield from piece[0].split(":")[1].split()


def parts_of(text):
    """A list of parameters or fields, at the commas that no bracket encloses."""
    parts, depth, begin = [], 0, 0
    for place, letter in enumerate(text):
        depth += (letter in "([<") - (letter in ")]>")
        if letter == "," and depth == 0:
            parts.append(text[begin:place])
            begin = place + 1
    return [it.strip() for it in parts + [text[begin:]] if it.strip()]


def signature_of(head):
    """A function's parameters and answer as the document writes them, from its head's text."""
    head = re.sub(r"<'\w+>|'\w+ ", "", head.split(" //")[0]).replace("->", "→").rstrip("{ ")
    inside, _, answer = head.partition("→")
    inside = inside[inside.index("("):].strip()[1:-1]
    kept = [it for it in parts_of(inside) if it.split(":")[0] not in LEFT_OUT]
    answer = answer.strip().replace(", PcmError>", ">")
    return f"({', '.join(kept)})" + (f" -> {answer}" if answer else "")


def head_at(lines, number, name):
    """The text of a function's head behind its name, without its type parameters."""
    head = check_claims.head_of(lines, number).split(f"fn {name}", 1)[1]
    depth = 0
    for place, letter in enumerate(head):
        depth += (letter == "<") - (letter == ">")
        if depth == 0 and letter == "(":
            return head[place:]
    return head


def signatures_of(crate):
    """Each signature of a crate's calls, as the document writes it."""
    for path in sorted(glob.glob(f"{ROOT}/crates/{crate}/src/**/*.rt", recursive=True)):
        lines = check_claims.text_of(path).split("\n")
        for owner, name, number, _ in check_claims.functions_of(lines):
            yield (f"{owner}::{name}" if owner else name) + signature_of(head_at(lines, number, name))


def call_faults(text, crates):
    """The signatures, calls and tests that no crate has."""
    signatures = {it for crate in crates for it in signatures_of(crate)}
    calls = {it.split("(")[0] for it in signatures}
    names = {it.split("::")[-1] for it in calls}
    rows = rows_of(section_of(text, "What a call asks, and its test"))[1:]
    for row in rows:
        yield from (f"no signature: `{it}`" for it in re.findall(r"`([^`]+)`", row[0]) if it not in signatures)
        yield from (f"no test: {it}" for it in re.findall(r"`(\w+)`", row[2]) if it not in names)
    for name in sorted(set(re.findall(r"`([A-Z]\w+::\w+)`", text)) - calls):
        yield f"no call: {name}"


def types_of(crates):
    """The body of each public type of the crates, and its crate: of each name there may be several."""
    found = {}
    for crate in crates:
        for source in check_claims.texts_under(crate, "src", ".rt"):
            for name, body in re.findall(r"^pub (?:struct|enum) (\w+)(?:<[^>]*>)?(?: \{\n(.*?)^\}|;)", source, re.M | re.S):
                found.setdefault(name, []).append((crate, body))
    return found


def field_faults(lines, types):
    """The types whose fields aren't those of the code."""
    for _, piece in pieces_of(lines):
        for line in piece:
            name, _, fields = line.split("//")[0].strip().rstrip("}").partition(" {")
            bodies = [body for _, body in types.get(name, [])]
            if parts_of(fields) not in [re.findall(r"^    pub (\w+: .*),$", body, re.M) for body in bodies]:
                yield f"other fields: {name}"


def values_of(crate, name, types):
    """What a row may say of a type of errors: its values, or of a struct its cause or the cause's values."""
    body = next((body for owner, body in types.get(name, []) if owner == crate), "")
    cause = re.search(r"^    pub why: (\w+),", body, re.M)
    if cause:
        return [{cause.group(1)}, *values_of(crate, cause.group(1), types)]
    return [set(re.findall(r"^    ([A-Z]\w*)[,({ ]", body, re.M))]


def error_faults(lines, types):
    """The rows that name other values than a type of errors has."""
    for row in rows_of(lines)[1:]:
        name, crate = re.match(r"`(\w+)` of `(\w+)`", row[0]).groups()
        named = set(re.findall(r"`([A-Z]\w+)`", row[2]))
        if name not in types or (named and named not in values_of(crate, name, types)):
            yield f"other values: {name}"


def range_faults(lines):
    """The bounds of a geometry that the function which makes one doesn't test, and those that it tests beside them."""
    bounds = set(re.findall(r"^    pub ghost \w+: \{.*?\b(\d+)\b", read("crates/snd_base/src/geometry.rt"), re.M))
    tested = {it for _, piece in pieces_of(lines) for it in re.findall(r"[<>] (\d+)", "\n".join(piece))}
    yield from (f"not tested: {it}" for it in sorted(bounds - tested))
    yield from (f"no bound: {it}" for it in sorted(tested - bounds))


def faults_of(text):
    """What of the document isn't as the code is."""
    crates = check_claims.crates_of(read("crates.txt"))
    types = types_of(crates)
    yield from program_faults(section_of(text, "A whole program"))
    yield from caller_faults(section_of(text, "Three callers"))
    yield from (f"no crate: {name}" for name in named_crates(text) if name not in crates)
    yield from call_faults(text, crates)
    yield from range_faults(section_of(text, "Numbers of the run"))
    yield from field_faults(section_of(text, "Fields"), types)
    yield from error_faults(section_of(text, "Errors"), types)


def main():
    """Prints what isn't as it should be."""
    command.no_words(__doc__)
    faults = list(faults_of(read("docs/LIBRARY.md")))
    for fault in faults:
        print(fault)
    print(f"docs/LIBRARY.md: {len(faults)} faults")
    return 1 if faults else 0


if __name__ == "__main__":
    command.run(main)
