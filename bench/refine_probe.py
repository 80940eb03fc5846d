#!/usr/bin/env python3
"""Compares `dmixlab refine` with alsa-lib's refinement of its `null` PCM, on random narrowings.

usage: bench/refine_probe.py [TEXTS [SEED]]     from the top of the repository; wants cc and alsa-lib's headers, and builds
                                                the program if needed (400 texts, seed 1)

Each text has a slave and up to twelve lines `set`, `min`, `max`, `integer` and `show` on interval parameters; the numbers
are mostly within or near what is left. `near` and `choose` are left out, since their order of steps is this project's own.
A text whose answers differ is printed with both answers; the last line says how many lines were compared.
"""
import random
import subprocess
import sys
import tempfile
from pathlib import Path

TOP = Path(__file__).resolve().parent.parent
PROGRAM = TOP / "build/dmixlab"
PARAMETERS = ["sample_bits", "frame_bits", "channels", "rate", "period_time", "period_size", "period_bytes", "periods",
              "buffer_time", "buffer_size", "buffer_bytes"]


def slave(draw):
    ring = draw.choice([64, 128, 1000, 1024, 4096, 6000, 8192, 16384])
    period = draw.choice([size for size in range(16, ring // 2 + 1) if ring % size == 0])
    rate = draw.choice([4000, 8000, 11025, 22050, 44100, 48000, 96000, 192000])
    return f"slave channels {draw.randint(1, 8)} rate {rate} period {period} ring {ring}"


def answers(command, text, folder):
    path = folder / "text"
    path.write_text(text)
    with path.open() as stdin:
        done = subprocess.run([str(word) for word in command], cwd=folder, stdin=stdin, capture_output=True, text=True)
    return done.stdout.splitlines() if done.returncode == 0 else [f"status {done.returncode}: {done.stderr.strip()}"]


def ends(answer):
    """The numbers of an answer's ends, or None for `empty`."""
    if not answer.startswith("ok "):
        return None
    least, greatest = answer.split()[2].strip("[]()").split(",")
    return int(least), int(greatest)


def line(draw, command, lines, folder):
    """A random line, its number drawn near what the lines so far leave, as a command says."""
    name = draw.choice(PARAMETERS)
    word = draw.choice(["set", "set", "min", "max", "min", "max", "integer", "show"])
    if word in ("integer", "show"):
        return f"{word} {name}"
    left = ends(answers(command, "\n".join(lines + [f"show {name}"]) + "\n", folder)[-1])
    least, greatest = left if left else (0, 4294967295)
    number = draw.choice([draw.randint(least, greatest), draw.randint(least, greatest), least, greatest,
                          max(least - 1, 0), min(greatest + 1, 4294967295), draw.randint(0, 4294967295)])
    return f"{word} {name} {number}"


def main():
    texts = int(sys.argv[1]) if len(sys.argv) > 1 else 400
    draw = random.Random(int(sys.argv[2]) if len(sys.argv) > 2 else 1)
    subprocess.run([str(TOP / "dmixlab"), "--version"], check=True)
    with tempfile.TemporaryDirectory() as name:
        folder = Path(name)
        probe = folder / "refine_probe"
        subprocess.run(["cc", "-O1", "-o", str(probe), str(TOP / "bench/refine_probe.c"), "-lasound"], check=True)
        compared = different = 0
        for _ in range(texts):
            lines = [slave(draw)]
            for _ in range(draw.randint(1, 12)):
                lines.append(line(draw, [probe], lines, folder))
            lines += [f"show {name}" for name in PARAMETERS]
            text = "\n".join(lines) + "\n"
            alsa, ours = answers([probe], text, folder), answers([PROGRAM, "refine", "text"], text, folder)
            compared += len(lines) - 1
            if alsa != ours:
                different += 1
                print(text, "alsa-lib:", *alsa, "dmixlab:", *ours, sep="\n")
        print(f"{texts} texts, {compared} lines; {different} texts differ")
    sys.exit(1 if different else 0)


if __name__ == "__main__":
    main()
