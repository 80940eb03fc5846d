#!/usr/bin/env python3
"""Times the reader of configuration files on texts of 1 MiB.

usage: bench/conf_speed.py        from the top of the repository; proves and builds crates/bench if needed

Each text is read nine times in one run, and there are ROUNDS runs; the least time counts. The limit is 40 ms for each
text. The second time has the letting go of what was read too. It ends with an error that names the rows above the limit.
"""
import subprocess
import sys
import tempfile
from pathlib import Path

TOP = Path(__file__).resolve().parent.parent
CRATE = TOP / "crates/bench"
PROGRAM = CRATE / "out/bench"
SIZE, ROUNDS, LIMIT = 1 << 20, 5, 40.0

DEVICE = """pcm.{name} {{
    type dmix
    ipc_key {key}
    slave {{
        pcm "hw:{card},0"
        period_size 1024
        buffer_size 8192
        rate 44100
    }}
    bindings {{
        0 0
        1 1
    }}
}}
"""


def filled(piece):
    """As many numbered pieces as fit."""
    text, number = [], 0
    size = 0
    while size + len(piece(number)) <= SIZE:
        text.append(piece(number))
        size += len(text[-1])
        number += 1
    return "".join(text)


LETTERS = "abcdefghijklmnopqrstuvwxyzABCDEFGHIJKLMNOPQRSTUVWXYZ0123456789"


def short_name(number):
    """A name of few bytes for each number."""
    number += len(LETTERS)
    name = ""
    while number:
        number, digit = divmod(number, len(LETTERS))
        name = LETTERS[digit] + name
    return name


def within(before, piece, after):
    """As many numbered pieces as fit between two texts, where all are as long as the first."""
    room = (SIZE - len(before) - len(after)) // len(piece(0)) * len(piece(0))
    return before + filled(piece)[:room] + after


def listed(piece):
    """As many numbered pieces as fit in a list."""
    return within("a [\n", piece, "]\n")


def texts():
    """Each text with what it is."""
    yield "one device, defined again and again", filled(lambda i: DEVICE.format(name="dmixer", key=1024 + i, card=i % 8))
    yield "comments", filled(lambda i: "# a line of a comment that is as long as they are\n")
    yield "keys of 15 parts", filled(lambda i: f"a.b.c.d.e.f.g.h.i.j.k.l.m.n.o {i % 10}\n")
    yield "keys of 15 parts, each with another last one", filled(lambda i: f"a.b.c.d.e.f.g.h.i.j.k.l.m.n.o{i} {i % 10}\n")
    yield "devices of many names", filled(lambda i: DEVICE.format(name=f"dmix{i}", key=1024 + i, card=i % 8))
    yield "names in one group", filled(lambda i: f"k{i} {i % 10}\n")
    yield "short names in one group, with empty texts", filled(lambda i: f'{short_name(i)}""')
    yield "one name, 15 groups deep", within("".join(f"{name}{{" for name in "abcdefghijklmno"), lambda i: 'k""', "}" * 15)
    yield "one name, removed and added again and again", filled(lambda i: "!a 1\n")
    yield "1,000 names, each removed and added again and again", filled(lambda i: f"!k{i % 1000} 1\n")
    yield "a list of values, each put again by its number", "a [\n" + "1\n" * 80000 + "]\n" + "".join(f"a.{i} 2\n" for i in range(80000))
    yield "a list of 20,000 values", "a [\n" + "".join(f"{i % 10}\n" for i in range(20000)) + "]\n"
    yield "a list of values", listed(lambda i: f"{i % 10}\n")
    yield "a list of values, with commas", listed(lambda i: f"{i % 10},")
    yield "a list of empty groups", listed(lambda i: "{}")
    yield "a list of empty lists", listed(lambda i: "[]")
    yield "a list of groups and values in turn", listed(lambda i: "{}1 ")
    yield "a list of empty groups, 15 lists deep", within("a " + "[" * 14, lambda i: "{}", "]" * 14 + "\n")
    yield "a list of groups with a text each", listed(lambda i: "{a 1}")
    yield "a list of groups with an empty group each", listed(lambda i: "{a{}}")
    yield "a list of groups with a key of four parts each", listed(lambda i: "{a.b.c.d 1}")
    yield "a list of lists of one value", listed(lambda i: "[1]")
    yield "a list of values and lists of one value in turn", listed(lambda i: "1[1]")
    yield "a list of lists, 13 deep in one another", listed(lambda i: "[" * 13 + "]" * 13)


def milliseconds(path):
    """The least time of some runs, and the least with what was read let go."""
    best = whole = float("inf")
    for _ in range(ROUNDS):
        answer = subprocess.run([PROGRAM, "conf", path], stdout=subprocess.PIPE, text=True, check=True).stdout.split()
        if answer[-1] != "ok":
            sys.exit(f"{path}: {' '.join(answer)}")
        best = min(best, int(answer[0]) / 1e6)
        whole = min(whole, int(answer[1]) / 1e6)
    return best, whole


def main():
    """Builds the program, and prints the table."""
    subprocess.run(["rt", "run"], cwd=CRATE, stdout=subprocess.DEVNULL, stderr=subprocess.DEVNULL)
    if not PROGRAM.exists():
        sys.exit("crates/bench isn't built: see `rt run` there")
    late = []
    with tempfile.TemporaryDirectory() as folder:
        path = Path(folder) / "asound.conf"
        for what, text in texts():
            path.write_text(text)
            time, whole = milliseconds(path)
            print(f"| {what} | {len(text)} bytes | {time:.1f} ms | {whole:.1f} ms |")
            if time >= LIMIT:
                late.append(what)
    if late:
        sys.exit(f"above {LIMIT} ms: {', '.join(late)}")


if __name__ == "__main__":
    main()
