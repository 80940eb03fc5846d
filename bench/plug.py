#!/usr/bin/env python3
"""Compares what plug_chain converts with its definition, and times it beside sox.

usage: bench/plug.py compare      every width, table and pair of usual rates, in pieces of several sizes, against the definition below
       bench/plug.py time         16-bit stereo at equal rates, and from 44,100 to 48,000, beside `sox` where it is installed

Both prove and build crates/bench if needed. Run it from the top of the repository.
"""
import random
import shutil
import struct
import subprocess
import sys
import tempfile
import time
from pathlib import Path

TOP = Path(__file__).resolve().parent.parent
CRATE = TOP / "crates/bench"
PROGRAM = CRATE / "out/bench"
RATES = (8000, 11025, 12000, 16000, 22050, 24000, 32000, 44100, 48000, 64000, 88200, 96000)
WIDTHS = {"s8": 1, "u8": 1, "s16le": 2, "s16be": 2, "s24": 3, "s32": 4}
# A round is short, so that some of many aren't interrupted by what else runs on the machine; sox gets more samples.
SAMPLES, ROUNDS, TIMES = 200_000, 2000, 20


def sample(form, raw):
    """The 16-bit sample of some bytes: more bits are divided and rounded down."""
    if form == "u8":
        return (raw[0] - 128) * 256
    number = int.from_bytes(raw, "big" if form == "s16be" else "little", signed=True)
    return number * 256 if form == "s8" else number >> (8 * (len(raw) - 2))


def weight(inputs, outputs, output, input_):
    """The weight of an input in an output of the usual table, of 65536."""
    if inputs != outputs and inputs == 1:
        return 65536
    if inputs != outputs and outputs == 1:
        return 65536 // inputs
    return 65536 if input_ == output else 0


def definition(form, inputs, outputs, in_rate, out_rate, data):
    """The samples that bytes are converted to."""
    width = WIDTHS[form]
    frames = []
    for at in range(0, len(data) // (width * inputs) * width * inputs, width * inputs):
        heard = [sample(form, data[at + c * width : at + (c + 1) * width]) for c in range(inputs)]
        sums = [sum(weight(inputs, outputs, o, i) * x for i, x in enumerate(heard)) // 65536 for o in range(outputs)]
        frames.append([max(-32768, min(32767, s)) for s in sums])
    out, j = [], 0
    while j * in_rate // out_rate < len(frames):
        i, part = divmod(j * in_rate, out_rate)
        behind = frames[min(i + 1, len(frames) - 1)]
        out += [x + (y - x) * part // out_rate for x, y in zip(frames[i], behind)]
        j += 1
    return out


def build():
    """The program is proved and built only where it has changed."""
    subprocess.run(["rt", "run"], cwd=CRATE, stdout=subprocess.DEVNULL, stderr=subprocess.DEVNULL)
    if not PROGRAM.exists():
        sys.exit("crates/bench isn't built: see `rt run` there")


def run(folder, data, form, inputs, outputs, in_rate, out_rate, piece, rounds):
    """The samples that the program writes, and the nanoseconds of its fastest round."""
    (folder / "in").write_bytes(data)
    words = [PROGRAM, "plug", folder / "in", folder / "out", form, inputs, outputs, in_rate, out_rate, piece, rounds]
    process = subprocess.run([str(w) for w in words], stdout=subprocess.PIPE, text=True, check=True)
    raw = (folder / "out").read_bytes()
    return list(struct.unpack(f"<{len(raw) // 2}h", raw)), int(process.stdout)


def compare(folder):
    """Random bytes in every width and between all rates, and through every table, in pieces."""
    random.seed(7)
    cases = [(f, 2, 2, a, b) for f in WIDTHS for a in RATES for b in RATES]
    cases += [("s24", i, o, 44100, 48000) for i in range(1, 9) for o in range(1, 9)]
    for number, (form, inputs, outputs, in_rate, out_rate) in enumerate(cases):
        data = random.randbytes(random.randrange(0, 1500))
        for piece in (1, 2, 7, 4096):
            got, _ = run(folder, data, form, inputs, outputs, in_rate, out_rate, piece, 1)
            if got != definition(form, inputs, outputs, in_rate, out_rate, data):
                sys.exit(f"differs: {form} {inputs} {outputs} {in_rate} {out_rate}, {len(data)} bytes, pieces of {piece}")
    print(f"{len(cases)} conversions, each in pieces of 1, 2, 7 and 4,096 bytes: none differs")


def sox_time(folder, in_rate, out_rate):
    """The time of sox for a file of the same samples again and again, in seconds for one of them, the least of three."""
    if shutil.which("sox") is None:
        return None
    (folder / "many").write_bytes((folder / "in").read_bytes() * TIMES)
    words = ["sox", "-t", "raw", "-e", "signed", "-b", "16", "-c", "2", "-r", str(in_rate), str(folder / "many")]
    words += ["-t", "raw", "-r", str(out_rate), str(folder / "sox_out"), *(["rate", "-q"] if in_rate != out_rate else [])]
    best = float("inf")
    for _ in range(3):
        before = time.perf_counter()
        subprocess.run(words, check=True, stderr=subprocess.DEVNULL)
        best = min(best, time.perf_counter() - before)
    return best / TIMES


def measure(folder):
    """Prints the table of input samples a second."""
    random.seed(1)
    data = struct.pack(f"<{SAMPLES}h", *(random.randrange(-16000, 16000) for _ in range(SAMPLES)))
    print("| 16-bit stereo | plug_chain, M samples/s | sox with files, M samples/s |")
    print("|---|---|---|")
    for in_rate, out_rate in ((48000, 48000), (44100, 48000)):
        _, best = run(folder, data, "s16le", 2, 2, in_rate, out_rate, 65536, ROUNDS)
        sox = sox_time(folder, in_rate, out_rate)
        beside = "-" if sox is None else f"{SAMPLES / sox / 1e6:.1f}"
        print(f"| {in_rate} to {out_rate} | {SAMPLES * 1000 / best:.1f} | {beside} |")


def main():
    """Does what the word says."""
    if sys.argv[1:] not in (["compare"], ["time"]):
        sys.exit(__doc__)
    build()
    with tempfile.TemporaryDirectory() as name:
        (compare if sys.argv[1] == "compare" else measure)(Path(name))


if __name__ == "__main__":
    main()
