#!/usr/bin/env python3
"""Compares a report that `dmixlab run` printed with the lines that a file expects of it, for continuous integration.

    expect_report.py my.report my.expect                      says of each expected line whether it is there, as TAP
    expect_report.py my.report my.expect --form junit         the same as JUnit's XML
    expect_report.py my.report my.expect --junit my.xml       as TAP, and as XML in the file my.xml

The expected lines are some of the report's, in the report's order; between two of them the report may have any others. Words are
separated by spaces and tabs, and lines without words are skipped.

    a word        the same word
    *             any word
    ...           any words, or none, up to the line's end; it is the last word
    # a comment   where a word may begin: it and the rest of the line are skipped

Each expected line is looked for behind the one that was found last, and the first line that is so is taken. Where there is none, the
next expected line is looked for from the same place.

The status is 0 where each line is there, 1 where one isn't, 2 where the report can't be read or isn't one, or the file of expected lines
can't be read or has none, and 5 where the answer can't be written. With 2 and 5 one line on standard error says why.
"""
from __future__ import annotations

import json
import os
import sys
from dataclasses import dataclass
from xml.sax.saxutils import escape, quoteattr

sys.path.insert(0, os.path.dirname(os.path.abspath(__file__)))

import command
import read_report

ANY_WORD, ANY_REST = "*", "..."


@dataclass(frozen=True)
class Expected:
    """A line that is expected: its number in the file and its words."""

    number: int
    words: tuple[str, ...]

    def __str__(self):
        return " ".join(self.words)


@dataclass(frozen=True)
class Finding:
    """What came of an expected line: why it isn't there, or None, and the line of the report that is most like it, or None."""

    expected: Expected
    fault: str | None = None
    nearest: str | None = None


def expected_in(path):
    """The lines that a file expects."""
    lines = []
    # (each byte is a character, so that a line of other bytes is refused by its number)
    for number, line in enumerate(command.bytes_of(path).decode("latin-1").split("\n"), 1):
        words = words_of(line.rstrip("\r"))
        if any(not "!" <= letter <= "~" for word in words for letter in word):
            raise command.Refused(f"{path}: line {number}: a word has a byte that isn't visible ASCII, and no report has one")
        if ANY_REST in words[:-1]:
            raise command.Refused(f"{path}: line {number}: {ANY_REST} is the last word of a line")
        if words:
            lines.append(Expected(number, tuple(words)))
    if not lines:
        raise command.Refused(f"{path}: it expects nothing")
    return lines


def words_of(line):
    """The words of a line before its comment."""
    words = line.replace("\t", " ").split(" ")
    comment = next((at for at, word in enumerate(words) if word.startswith("#")), len(words))
    return [word for word in words[:comment] if word]


def is_so(found, words):
    """Whether the words of a report's line are as they are expected."""
    if words[-1] == ANY_REST:
        words = words[:-1]
        found = found[: len(words)]
    return len(found) == len(words) and all(wanted in (ANY_WORD, word) for wanted, word in zip(words, found))


def nearest_of(lines, words):
    """The line with the most words in the places where they are expected, which are half of them at least, or None."""
    count = lambda line: sum(wanted == word for wanted, word in zip(words, line))
    best = max(lines, key=count)
    return " ".join(best) if 2 * count(best) >= len(words) else None


def missing(lines, it, behind):
    """Why an expected line isn't among the lines of a report from this place on."""
    earlier = next((at for at in range(behind) if is_so(lines[at], it.words)), None)
    if earlier is None:
        return Finding(it, "no line of the report is so", nearest_of(lines, it.words))
    return Finding(it, f"line {earlier + 1} of the report is so, and isn't behind line {behind}, which was found last")


def findings_of(text, expected):
    """What came of each expected line, by the text of a report."""
    lines = [line.split(" ") for line in text.splitlines()]
    behind, findings = 0, []
    for it in expected:
        at = next((at for at in range(behind, len(lines)) if is_so(lines[at], it.words)), None)
        findings.append(missing(lines, it, behind) if at is None else Finding(it))
        behind = behind if at is None else at + 1
    return findings


def tap_of(findings, path):
    """The findings as TAP, the Test Anything Protocol, version 13."""
    lines = ["TAP version 13", f"1..{len(findings)}"]
    for number, it in enumerate(findings, 1):
        lines.append(f"{'not ok' if it.fault else 'ok'} {number} - {it.expected}")
        if it.fault:
            notes = {"message": it.fault, "nearest": it.nearest, "at": f"{path}:{it.expected.number}"}
            # (a text of JSON is one of YAML too)
            lines += ["  ---", *(f"  {key}: {json.dumps(text)}" for key, text in notes.items() if text), "  ..."]
    return "".join(f"{line}\n" for line in lines)


def case_of(finding, path):
    """The lines of a finding in JUnit's XML."""
    number, wanted = finding.expected.number, str(finding.expected)
    names = f"classname={quoteattr(path)} name={quoteattr(f'line {number}: {wanted}')} file={quoteattr(path)} line=\"{number}\""
    if not finding.fault:
        return [f"    <testcase {names}/>"]
    text = f"nearest: {finding.nearest}" if finding.nearest else finding.fault
    failure = f"      <failure message={quoteattr(finding.fault)}>{escape(text)}</failure>"
    return [f"    <testcase {names}>", failure, "    </testcase>"]


def junit_of(findings, report, path):
    """The findings as JUnit's XML."""
    counts = f'tests="{len(findings)}" failures="{sum(1 for it in findings if it.fault)}" errors="0" skipped="0"'
    head = ['<?xml version="1.0" encoding="UTF-8"?>', f"<testsuites {counts}>", f"  <testsuite name={quoteattr(report)} {counts}>"]
    cases = [line for it in findings for line in case_of(it, path)]
    return "".join(f"{line}\n" for line in [*head, *cases, "  </testsuite>", "</testsuites>"])


def arguments():
    words = command.Words(__doc__)
    words.add_argument("report", help="a file, or - for standard input")
    words.add_argument("expect", help="the file of expected lines")
    words.add_argument("--form", choices=("tap", "junit"), default="tap", help="of what is printed (default: tap)")
    words.add_argument("--junit", metavar="OUT", help="stores the answer as JUnit's XML in this file")
    return words.parse_args()


def main():
    asked = arguments()
    if asked.report == asked.expect == "-":
        raise command.Refused("the report and the expected lines can't both be standard input")
    findings = findings_of(read_report.text_for_command(asked.report), expected_in(asked.expect))
    report, expect = command.visible(asked.report), command.visible(asked.expect)
    as_junit = junit_of(findings, report, expect)
    if asked.junit is not None:
        command.store(asked.junit, as_junit.encode())
    sys.stdout.write(as_junit if asked.form == "junit" else tap_of(findings, expect))
    return command.WRONG if any(it.fault for it in findings) else command.RIGHT


if __name__ == "__main__":
    command.run(main)
