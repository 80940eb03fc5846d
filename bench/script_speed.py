#!/usr/bin/env python3
"""Times the reader of scripts on texts of 1 MiB.

usage: bench/script_speed.py        from the top of the repository; proves and builds crates/bench if needed

Each text is read nine times in one run, and there are ROUNDS runs; the least time counts. The limit is 30 ms for a script
with 64 clients, 64 readers and 4,096 phases.
"""
import subprocess
import sys
import tempfile
from pathlib import Path

TOP = Path(__file__).resolve().parent.parent
CRATE = TOP / "crates/bench"
PROGRAM = CRATE / "out/bench"
SIZE, ROUNDS, LIMIT, PHASES, ACTORS = 1 << 20, 5, 30.0, 4096, 64


def declared():
    """The card, and as many clients and readers as there may be, each opened."""
    clients = [f"client_{number:02d}" for number in range(ACTORS)]
    readers = [f"reader_{number:02d}" for number in range(ACTORS)]
    text = "card channels 2 rate 48000 period 64 ring 1024 places 64\n"
    text += "".join(f"client {name} {name}.wav\n" for name in clients)
    text += "".join(f"reader {name}\n" for name in readers)
    text += "".join(f"open {name}\n" for name in clients + readers)
    return text, clients + readers


def phases_in_turn():
    """Each phase is of one actor, with as many lines as there is room for."""
    text, names = declared()
    room = (SIZE - len(text)) // PHASES
    for phase in range(PHASES):
        name = names[phase % len(names)]
        line = f"{name} {'write' if name[0] == 'c' else 'read'} 64\n"
        text += "phase\n" + line * ((room - len("phase\nend\n")) // len(line)) + "end\n"
    return text


def shortest_lines():
    """One phase of the shortest lines of the last of 128 actors."""
    text = "card\n" + "".join(f"client c{number} f\n" for number in range(ACTORS))
    text += "".join(f"reader r{number}\n" for number in range(ACTORS))
    line = "r63 sync\n"
    return text + "phase\n" + line * ((SIZE - len(text) - len("phase\nend\n")) // len(line)) + "end\n"


def texts():
    """Each text with what it is, and whether the limit is for it."""
    yield "4,096 phases of 128 actors in turn", phases_in_turn(), True
    yield "the shortest lines of the last of 128 actors", shortest_lines(), False
    yield "comments", "card\n" + "# a line of a comment that is as long as they are\n" * 20000, False


def milliseconds(path):
    """The least time of some runs."""
    best = float("inf")
    for _ in range(ROUNDS):
        answer = subprocess.run([PROGRAM, "script", path], stdout=subprocess.PIPE, text=True, check=True).stdout.split()
        if answer[-1] != "ok":
            sys.exit(f"{path}: {' '.join(answer)}")
        best = min(best, int(answer[0]) / 1e6)
    return best


def main():
    """Builds the program, and prints the table."""
    subprocess.run(["rt", "run"], cwd=CRATE, stdout=subprocess.DEVNULL, stderr=subprocess.DEVNULL)
    if not PROGRAM.exists():
        sys.exit("crates/bench isn't built: see `rt run` there")
    late = []
    with tempfile.TemporaryDirectory() as folder:
        path = Path(folder) / "script"
        for what, text, limited in texts():
            path.write_text(text)
            time = milliseconds(path)
            print(f"| {what} | {len(text)} bytes | {time:.1f} ms |", flush=True)
            if limited and time >= LIMIT:
                late.append(what)
    if late:
        sys.exit(f"above {LIMIT} ms: {', '.join(late)}")


if __name__ == "__main__":
    main()
