#!/usr/bin/env python3
"""Times the reading and the printing of reports of about 100,000 rows (a script of 1 MiB has no more of these actors' lines).

usage: bench/report_speed.py        from the top of the repository; proves and builds crates/bench if needed

Each report is read and printed nine times in one run, and there are ROUNDS runs; the least times count. The limits are those
of 200,000 rows, 100 ms to read and 60 ms to print, in proportion.
"""
import subprocess
import sys
import tempfile
from pathlib import Path

TOP = Path(__file__).resolve().parent.parent
CRATE = TOP / "crates/bench"
PROGRAM = CRATE / "out/bench"
SIZE, ROUNDS, ACTORS = 1 << 20, 5, 64
READ, PRINTED, ROWS = 100.0, 60.0, 200_000


def script_and_report(phases):
    """A script of so many phases with the shortest lines of all actors in turn, and a report of it."""
    text = "card\n" + "".join(f"client c{number} f\n" for number in range(ACTORS))
    text += "".join(f"reader r{number}\n" for number in range(ACTORS))
    names = [f"c{number}" for number in range(ACTORS)] + [f"r{number}" for number in range(ACTORS)]
    report = ["dmixlab 1\n"]
    lines = (SIZE - len(text) - phases * len("phase\nend\n")) // len("c63 sync\n")
    each = lines // phases
    for phase in range(phases):
        asked = [names[(phase * each + line) % len(names)] for line in range(each)]
        text += "phase\n" + "".join(f"{name} sync\n" for name in asked) + "end\n"
        asked.sort(key=names.index)
        report += [f"{phase + 1} {name} sync = EPIPE late 1099511627264 1 XRUN 1099511627264\n" for name in asked]
    return text, "".join(report) + "played 0 0\nend\n", phases * each


def milliseconds(script, report):
    """The least times of some runs, of reading and of printing."""
    best = [float("inf"), float("inf")]
    for _ in range(ROUNDS):
        answer = subprocess.run([PROGRAM, "report", script, report], stdout=subprocess.PIPE, text=True, check=True).stdout.split()
        if answer[-1] != "ok":
            sys.exit(f"{report}: {' '.join(answer)}")
        best = [min(old, int(new) / 1e6) for old, new in zip(best, answer)]
    return best


def main():
    """Builds the program, and prints the table."""
    subprocess.run(["rt", "run"], cwd=CRATE, stdout=subprocess.DEVNULL, stderr=subprocess.DEVNULL)
    if not PROGRAM.exists():
        sys.exit("crates/bench isn't built: see `rt run` there")
    late = []
    with tempfile.TemporaryDirectory() as folder:
        script, report = Path(folder) / "script", Path(folder) / "report"
        for phases in (4096, 64, 1):
            text, printed, rows = script_and_report(phases)
            script.write_text(text)
            report.write_text(printed)
            times = milliseconds(script, report)
            print(f"| {phases} phases | {rows} rows | {times[0]:.1f} ms | {times[1]:.1f} ms |", flush=True)
            if times[0] >= READ * rows / ROWS or times[1] >= PRINTED * rows / ROWS:
                late.append(f"{phases} phases")
    if late:
        sys.exit(f"above the limits: {', '.join(late)}")


if __name__ == "__main__":
    main()
