#!/usr/bin/env python3
"""Lists the words of public clauses that nothing explains, and the notes of docs/DEFINITIONS.md on words that there aren't.

    check_definitions.py             of every crate of crates.txt
    check_definitions.py CRATE..     the words that clauses of these crates cite, and all notes

A word is explained by the comment above its definition, or by a note; definitions.py says what a word and a note are, and finds
both. The status is 0 where each word is explained and each note is of a word, 1 where that isn't so, and 2 where crates.txt doesn't have
a crate that is named.
"""
from __future__ import annotations

import os
import sys

HERE = os.path.dirname(os.path.abspath(__file__))
sys.path.insert(0, HERE)
sys.path.insert(0, f"{os.path.dirname(HERE)}/tools")

import command
import crate_graph
from check_claims import crates_asked_for, text_of
from definitions import ROOT, Words, notes_in


def unexplained(cited, notes):
    """The line of each word that has neither a comment nor a note, of pairs of a definition and a call that cites it."""
    found = {f"{it.place()}: {it.word}, at {call}" for it, call in cited if not it.comment and not it.notes_among(notes)}
    return sorted(found)


def strangers(words, notes):
    """The words of notes that no crate defines."""
    every = [it for own, _, _ in words.files.values() for it in own.values()] + list(words.types.values())
    return sorted(set(notes) - {it.word for it in every} - {f"{it.crate}::{it.word}" for it in every})


def main():
    """Prints the words that aren't explained, and the notes without a word."""
    asked = crates_asked_for(__doc__)
    words = Words(list(crate_graph.read_lines(ROOT)))
    notes = notes_in(text_of(f"{ROOT}/docs/DEFINITIONS.md"))
    if asked:
        cited = [pair for crate in asked for pair in words.cited_in_clauses(crate)]
    else:
        cited = [(it, "a clause" if is_cited else "a definition that a clause cites") for it, is_cited in words.needed()]
    lines = unexplained(cited, notes)
    unknown = strangers(words, notes)
    for line in lines:
        print(f"no comment and no note: {line}")
    for word in unknown:
        print(f"a note on no definition: {word}")
    print(f"{len(cited)} words, {len(lines)} of them without a comment and a note; {len(unknown)} notes on no definition")
    return 1 if lines or unknown or not cited else 0


if __name__ == "__main__":
    command.run(main)
