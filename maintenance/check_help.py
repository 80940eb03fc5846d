#!/usr/bin/env python3
"""check_help.py: compares docs/help.txt and docs/version.txt with what the program puts for --help and --version.

`./dmixlab` answers these two words from the files where the program isn't built. With --write it writes the files anew. The status is 0
where they are the same, and otherwise 1."""
import os
import re
import sys

ROOT = os.path.dirname(os.path.dirname(os.path.abspath(__file__)))
sys.path.insert(0, f"{ROOT}/tools")

import command

SOURCE = "crates/lab_commands/src/words.rt"
ESCAPES = {"\\n": "\n", '\\"': '"', "\\\\": "\\"}
# each file, and how its text begins in the source
TEXTS = {
    "docs/help.txt": r'^const HELP: &\[u8\] = b"((?:[^"\\]|\\.)*)"',
    "docs/version.txt": r'^pub\(crate\) fn version\(\)[^"]*b"((?:[^"\\]|\\.)*)"',
}


def text_in(source, pattern):
    """The text of a literal of bytes in the source, or None."""
    found = re.search(pattern, source, re.M | re.S)
    return found and re.sub(r"\\.", lambda it: ESCAPES[it.group()], found.group(1))


def read(path):
    try:
        with open(path, encoding="utf-8") as file:
            return file.read()
    except FileNotFoundError:
        return None


def check(root, writes=False):
    """What is wrong, a line for each fault."""
    source, faults = read(f"{root}/{SOURCE}") or "", []
    for name, pattern in TEXTS.items():
        text = text_in(source, pattern)
        if text is None:
            faults.append(f"{SOURCE} has no text for {name} where it is looked for")
        elif writes:
            command.store(f"{root}/{name}", text.encode())
        elif read(f"{root}/{name}") != text:
            faults.append(f"{name} isn't the program's own text, which stands in {SOURCE}: maintenance/check_help.py --write")
    return faults


def main():
    words = command.Words(__doc__)
    words.add_argument("--write", action="store_true", help="writes the files anew")
    faults = check(ROOT, words.parse_args().write)
    print("\n".join(faults) or f"{len(TEXTS)} texts are the program's own")
    return 1 if faults else 0


if __name__ == "__main__":
    command.run(main)
