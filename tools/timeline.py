#!/usr/bin/env python3
"""Draws a report that `dmixlab run` printed: a row an actor, over the card's frames.

    timeline.py REPORT > session.svg         a picture
    timeline.py REPORT --svg session.svg     the same
    timeline.py REPORT --text                in letters, for a terminal

A bar is a segment of a client, or a run of a reader. A mark is an opening, a closing or a refusal, at the card's position
then; one that is about a frame that was late or overtaken is at that frame.

The status is 2 where the report can't be read or isn't one, and 5 where the picture can't be written.
"""
from __future__ import annotations

import os
import shutil
import sys

sys.path.insert(0, os.path.dirname(os.path.abspath(__file__)))

import command
import read_report
from draw_svg import svg_of
from draw_text import text_of
from session import session_of


def arguments():
    words = command.Words(__doc__)
    words.add_argument("report", help="a file, or - for standard input")
    words.add_argument("--svg", metavar="OUT", help="writes the picture to this file")
    words.add_argument("--text", action="store_true", help="draws in letters on standard output")
    words.add_argument("--columns", type=command.positive_number, metavar="N", help="of the letters (default: the terminal's)")
    return words.parse_args()


def main():
    asked = arguments()
    if asked.columns is not None and not asked.text:
        raise command.Refused("--columns is of the letters that --text draws, and there is no --text")
    session = session_of(read_report.read_for_command(asked.report))
    if asked.svg is not None:
        command.store(asked.svg, svg_of(session).encode())
    if asked.text:
        sys.stdout.write(text_of(session, asked.columns or shutil.get_terminal_size().columns))
    elif asked.svg is None:
        sys.stdout.write(svg_of(session))
    return 0


if __name__ == "__main__":
    command.run(main)
