#!/usr/bin/env python3
"""Times stores and loads of the snoop ring, beside the same loops written in C.

usage: bench/snoop_ring.py      from the top of the repository; wants cc, and proves and builds crates/bench if needed

The C program has the ring's length as a constant. It is compiled twice: with functions that are called for each frame, and with
these inlined. All programs store and load a ring of 16,384 frames lap by lap, and give for each measurement the time on the clock
of the fastest of 400 laps.

On some processors a loop takes up to twice the time where one of its jumps touches a border of 32 bytes, and compilers place loops
at multiples of 16. So each program is linked anew with its code moved by each of PLACES bytes. All are run in turn, ROUNDS times each,
and the least time of a program counts, wherever its code was.
"""
import os
import subprocess
import sys
import tempfile
from pathlib import Path

TOP = Path(__file__).resolve().parent.parent
CRATE = TOP / "crates/bench"
COMPILED = CRATE / "out/bench.o"
FRAMES, ROUNDS = 16384, 3
CHANNELS = (1, 2, 8)
PLACES = range(1, 33, 4)
KIT = Path(os.environ.get("RATTLE", "/opt/rattle"))
LIBRARIES = [KIT / "c/libos_c.a", KIT / "c/liblibc_c.a", "-lm", "-lpthread"]


def linked(folder, name, compiled, section, libraries):
    """A program, linked with the code of one section at each of PLACES."""
    moved = folder / f"{name}.o"
    subprocess.run(["objcopy", f"--set-section-alignment={section}=1", compiled, moved], check=True)
    programs = []
    for place in PLACES:
        head, program = folder / f"{name}{place}.s", folder / f"{name}{place}"
        head.write_text(f'.section {section},"ax",@progbits\n.balign 32\n.skip {place}, 0x90\n.section .note.GNU-stack,"",@progbits\n')
        subprocess.run(["cc", "-o", program, head, moved, *libraries], check=True)
        programs.append(program)
    return programs


def moved_first(folder):
    """The compiled crate with what is measured in a section that the linker puts before all others, as it does C's `main`."""
    table = subprocess.run(["objdump", "-h", COMPILED], stdout=subprocess.PIPE, text=True, check=True).stdout
    names = [word for word in table.split() if word.startswith(".text.bench::snoop::run")]
    if len(names) != 1:
        sys.exit("crates/bench doesn't have `snoop::run` as a function of its own")
    compiled = folder / "bench.o"
    subprocess.run(["objcopy", f"--rename-section={names[0]}=.text.startup", COMPILED, compiled], check=True)
    return compiled


def build(folder):
    """The C programs, which are compiled anew; the crate is proved and built only where it has changed."""
    subprocess.run(["rt", "run"], cwd=CRATE, stdout=subprocess.DEVNULL, stderr=subprocess.DEVNULL)
    if not COMPILED.exists():
        sys.exit("crates/bench isn't built: see `rt run` there")
    kinds = [linked(folder, "ring", moved_first(folder), ".text.startup", LIBRARIES)]
    for name, section, flags in (("called", ".text", ["-DCALLED=__attribute__((noinline))"]), ("inlined", ".text.startup", [])):
        compiled = folder / f"{name}_c.o"
        subprocess.run(["cc", "-O2", *flags, "-c", "-o", compiled, TOP / "bench/snoop_ring.c"], check=True)
        kinds.append(linked(folder, name, compiled, section, []))
    return kinds


def measure(program, best):
    """Runs a program, and keeps the lesser time of each of its lines."""
    process = subprocess.run([program, "snoop", "time"], stdout=subprocess.PIPE, text=True, check=True)
    for line in process.stdout.splitlines():
        what, nanoseconds = line.rsplit(" ", 1)
        best[what] = min(best.get(what, float("inf")), int(nanoseconds))


def cells(key, channels, ring, called, inlined):
    """Nanoseconds for each word, of the crate and of the C programs, and how the crate compares."""
    ours, call, inline = (times[key] / (FRAMES * channels) for times in (ring, called, inlined))
    return f"{ours:.2f} | {call:.2f} | {inline:.2f} | {ours / call:.2f} | {ours / inline:.2f}"


def main():
    """Builds and runs the programs, and prints the table."""
    times = [{}, {}, {}]
    with tempfile.TemporaryDirectory() as name:
        kinds = build(Path(name))
        for _ in range(ROUNDS):
            for programs, best in zip(kinds, times):
                for program in programs:
                    measure(program, best)
    for step, what in (("store", "ns a channel of `store_frame`"), ("load", "ns a channel of `load_frame`")):
        print(f"| {what} | the ring | C, called | C, inlined | ratio | ratio to the inlined |")
        print("|---|---|---|---|---|---|")
        for channels in CHANNELS:
            print(f"| {channels} | {cells(f'{step} {channels}', channels, *times)} |")
        print()


if __name__ == "__main__":
    main()
