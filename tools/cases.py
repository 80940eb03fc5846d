#!/usr/bin/env python3
"""Runs a corpus of cases by any program that has dmixlab's command line, and helps to write cases.

    cases.py run PROGRAM FILE.cases.. [=TEXT]      runs the cases, over real files in a new folder each
    cases.py unpack FOLDER FILE.cases.. [=TEXT]    writes each case as a folder of plain files
    cases.py skeleton NAME SCRIPT [WAV..]          prints a case for a script, whose answers a person is to work out
    cases.py complete FILE.cases                   prints the file with the sounds that follow from its reports

`=TEXT` picks the cases whose names have the text. No call of this tool writes what the program did into a case: a person works out the
report of a skeleton, and `complete` adds the WAV files, which follow from the report by definitions (expected.py), or is refused where one
doesn't, as of a client with `plug`. A skeleton has the bytes of its files, which are all that the script names. The status is 0
where no case failed, 1 where one did, 2 where a file isn't a corpus or isn't there, a word isn't known, there is no such program, or no
case has the text in its name, and 5 where something can't be written.
"""
from __future__ import annotations

import contextlib
import itertools
import os
import re
import struct
import subprocess
import sys
import tempfile
from concurrent.futures import ThreadPoolExecutor

HERE = os.path.dirname(os.path.abspath(__file__))
sys.path.insert(0, HERE)

import command
import corpus
import expected
import read_report

# a program that hasn't ended by then has failed its case
MOST_SECONDS = 60
# of a line that is shown
MOST_SHOWN = 200
WAV_HEAD = 44


def store(room, name, data):
    """Stores a file, whose name may have folders."""
    path = os.path.join(room, name)
    os.makedirs(os.path.dirname(path), exist_ok=True)
    with open(path, "wb") as file:
        file.write(data)


def store_all(room, files):
    for name, data in files.items():
        store(room, name, data)


def files_in(room):
    """The files of a folder and of those in it, by their names."""
    found = {}
    for at, _, names in os.walk(room):
        for name in names:
            with open(os.path.join(at, name), "rb") as file:
                found[os.path.relpath(os.path.join(at, name), room)] = file.read()
    return found


def script_of(case):
    """The script of a case of `run`."""
    if len(case.words) != 3 or case.words[1].decode("latin-1") not in case.files:
        raise expected.NotDerived("its call isn't `run SCRIPT OUT` with a script that is a file of the case")
    return case.files[case.words[1].decode("latin-1")].decode("latin-1")


def packed(samples):
    return struct.pack(f"<{len(samples)}h", *samples)


def sounds_of(case, report):
    """The WAV files that follow from a report on a case's script: what the card played, and what each reader recorded."""
    script, out = script_of(case), case.words[2].decode()
    with files_of(case) as room:
        played = expected.played_samples(script, report, room)
        found = {f"{out}.wav": corpus.wav(expected.card_channels(script), expected.card_rate(script), packed(played))}
        for name, bindings in expected.readers_of(script).items():
            recorded = expected.recorded_samples(script, report, room, name)
            found[f"{out}.{name}.wav"] = corpus.wav(len(bindings), expected.card_rate(script), packed(recorded))
    return found


@contextlib.contextmanager
def files_of(case):
    """A folder with the files of a case, whose name stands in no reason why they can't be taken."""
    with tempfile.TemporaryDirectory() as room:
        try:
            store_all(room, case.files)
            yield room
        except expected.NotDerived as cause:
            raise expected.NotDerived(str(cause).replace(f"{room}/", "")) from cause


def is_like(pattern, line):
    """Whether a line has the words of a pattern's, in which `?` is any word."""
    wanted, found = pattern.split(" "), line.split(" ")
    return len(wanted) == len(found) and all(word in ("?", other) for word, other in zip(wanted, found))


def mismatch(pattern, lines):
    """Where lines aren't those of a pattern, in which `...` is any number of lines: the number of a line from 1 on, the pattern's line that
    must be there or follow, and the one that is there; each None where there is none more. None where they are all so."""
    places = {0}
    for wanted in pattern:
        last = min(places)
        if wanted == "...":
            places = set(range(last, len(lines) + 1))
            continue
        places = {at + 1 for at in places if at < len(lines) and is_like(wanted, lines[at])}
        if not places:
            return last + 1, wanted, lines[last] if last < len(lines) else None
    last = max(places)
    return None if last == len(lines) else (last + 1, None, lines[last])


def shown_pair(head, wanted, found):
    """What differs at a place, in three lines; of None there is no line."""
    texts = ["(nothing)" if it is None else command.visible(it)[:MOST_SHOWN] for it in (wanted, found)]
    return f"{head}\n    wanted: {texts[0]}\n    found:  {texts[1]}"


def lines_of(data):
    """The lines of an output, each byte as a character; the last one has no line feed where that is missing."""
    lines = data.decode("latin-1").split("\n")
    return [*lines[:-1], *(f"{it} (no line feed)" for it in lines[-1:] if it)]


def line_fault(what, wanted, found):
    """The first line in which two texts differ."""
    pairs = list(itertools.zip_longest(lines_of(wanted), lines_of(found)))
    at = next(at for at, (one, other) in enumerate(pairs) if one != other)
    return shown_pair(f"{what}: line {at + 1}, {len(found)} bytes (wanted {len(wanted)})", *pairs[at])


def text_faults(case, ran):
    """What differs in the status and in what the outputs took."""
    said = []
    if ran.returncode != case.status:
        said.append(f"status {ran.returncode} (wanted {case.status})")
    if case.pattern is None and ran.stdout != case.out:
        said.append(line_fault("out", case.out, ran.stdout))
    place = None if case.pattern is None else mismatch(case.pattern, lines_of(ran.stdout))
    if place:
        said.append(shown_pair(f"out doesn't have the lines of any-order: line {place[0]}", *place[1:]))
    if ran.stderr != case.errors:
        said.append(line_fault("errors", case.errors, ran.stderr))
    return said


def wanted_files(case, out):
    """The files that must be there afterwards; those that the report decides follow from the one that was found."""
    wanted = case.after()
    if not case.mixed and not case.recorded:
        return wanted
    script, report = script_of(case), read_report.parse(out.decode("latin-1"))
    with files_of(case) as room:
        for name, (channels, rate) in case.mixed.items():
            wanted[name] = corpus.wav(channels, rate, packed(expected.played_samples(script, report, room)))
        for name, (reader, channels, rate) in case.recorded.items():
            wanted[name] = corpus.wav(channels, rate, packed(expected.recorded_samples(script, report, room, reader)))
    return wanted


def byte_fault(wanted, found):
    """The first byte in which two files differ; of WAV files with the same head but for its sizes, the first sample."""
    sizes = f"{len(found)} bytes (wanted {len(wanted)})"
    at = next((at for at, (one, other) in enumerate(zip(wanted, found)) if one != other), min(len(wanted), len(found)))
    is_wav = wanted[:4] == found[:4] == b"RIFF" and wanted[8:40] == found[8:40] and wanted[36:40] == b"data"
    samples = [it[WAV_HEAD : WAV_HEAD + (len(it) - WAV_HEAD) // 2 * 2] for it in (wanted, found)] if is_wav else [b"", b""]
    values = [struct.unpack(f"<{len(it) // 2}h", it) for it in samples]
    for number, (one, other) in enumerate(zip(*values)):
        if one != other:
            return f"sample {number} is {other} (wanted {one}), {sizes}"
    if at == min(len(wanted), len(found)) or (is_wav and len(wanted) != len(found)):
        return f"{sizes}; the shorter one is the beginning of the other, but for the sizes in a head"
    return f"byte {at} is {found[at]} (wanted {wanted[at]}), {sizes}"


def file_faults(wanted, found):
    """What differs in the files."""
    said = []
    for name in sorted({*wanted, *found}):
        if name not in wanted:
            said.append(f"{name} was made")
        elif name not in found:
            said.append(f"{name} wasn't made")
        elif wanted[name] != found[name]:
            said.append(f"{name}: {byte_fault(wanted[name], found[name])}")
    return said


def faults_of(case, program):
    """What differs where a case is run over real files."""
    with tempfile.TemporaryDirectory() as room:
        try:
            store_all(room, case.files)
        except OSError as cause:
            return [f"its files can't be stored: {cause.strerror}"]
        try:
            ran = subprocess.run([program.encode(), *case.words], cwd=room, capture_output=True, stdin=subprocess.DEVNULL, timeout=MOST_SECONDS)
        except subprocess.TimeoutExpired:
            return [f"no end after {MOST_SECONDS} seconds"]
        except OSError as cause:
            raise command.Refused(f"can't run {program}: {cause.strerror}") from cause
        found = files_in(room)
    said = text_faults(case, ran)
    try:
        return said + file_faults(wanted_files(case, ran.stdout), found)
    except read_report.NotAReport as error:
        return said + [f"out is no report: {error}"]
    except expected.NotDerived as error:
        return said + [f"what {' and '.join({**case.mixed, **case.recorded})} must have can't be worked out: {error}"]


def can_run(case):
    """Whether real files can have a case: none of its steps is to fail, and a process can be given its words."""
    return not case.has_faults and not any(b"\0" in word for word in case.words)


def run_file(program, path, found, pool):
    """Runs the cases of a file, and gives how many failed, or passed where they must fail."""
    runnable = [case for case in found.cases if can_run(case)]
    failed = 0
    for case, faults in zip(runnable, pool.map(lambda it: faults_of(it, program), runnable)):
        failed += bool(faults)
        for it in faults if not found.must_fail else () if faults else ("it passed, and must fail",):
            print(f"FAIL {case.path}:{case.line} {case.name}: {it}")
    passed, skipped = len(runnable) - failed, len(found.cases) - len(runnable)
    if found.must_fail:
        failed += found.refusal is not None
        print(f"{os.path.basename(path)}: {failed} failed, as they must, {passed} passed, {skipped} skipped")
        return passed
    print(f"{os.path.basename(path)}: {passed} passed, {failed} failed, {skipped} skipped")
    return failed


def picked(words):
    """The paths among words, each with its cases that are picked."""
    texts = [word[1:] for word in words if word.startswith("=")]
    found = {word: corpus.read(word) for word in words if not word.startswith("=")}
    if not found:
        raise command.Refused("no file of cases is given")
    for it in found.values():
        it.cases = [case for case in it.cases if all(text in case.name for text in texts)]
    if texts and not any(it.cases for it in found.values()):
        raise command.Refused(f"no case has {' and '.join(texts)} in its name")
    return found


def run(program, *words):
    program, failed = command.program_at(program), 0
    with ThreadPoolExecutor(os.cpu_count()) as pool:
        for path, found in picked(words).items():
            failed += run_file(program, path, found, pool)
    return 1 if failed else 0


def unpack(folder, *words):
    """Writes the files that a case finds into a folder of its own, and what it must leave into the folder `expected` in it."""
    rooms = set()
    for path, found in picked(words).items():
        for case in found.cases:
            name = re.sub(r"[^a-z0-9]+", "-", case.name.lower()).strip("-")
            own = os.path.join(folder, re.sub(r"\.cases$", "", os.path.basename(path)), name)
            # cases whose names differ in marks alone have folders of their own
            names = itertools.chain([own], (f"{own}-{number}" for number in itertools.count(2)))
            rooms.add(room := next(it for it in names if it not in rooms))
            unpack_case(case, room)
    return 0


def unpack_case(case, room):
    """Writes a case into a folder of its own."""
    taken = [it for it in case.files if it.split("/")[0] in ("words", "expected")]
    if taken:
        raise command.Refused(f"{case.path}: line {case.line}: the case {case.name!r} has a file {taken[0]}, where its words or answers go")
    pattern = "".join(f"{line}\n" for line in case.pattern or []).encode("latin-1")
    expects = {"out": pattern or case.out, "errors": case.errors, "status": b"%d\n" % case.status}
    try:
        store_all(room, {**case.files, "words": b"".join(word + b"\n" for word in case.words)})
        store_all(f"{room}/expected", {**case.leaves, **expects})
    except OSError as cause:
        raise command.NotWritten(f"can't write {cause.filename or room}: {cause.strerror}") from cause


def rows_of(script):
    """The beginnings of the rows of a script's report: of a phase the card's, the clients' and the readers', each in their order."""
    actors, rows, number, phase = {"card": ["card"], "client": [], "reader": []}, [], 0, None
    for words in expected.lines_of(script):
        if words[0] in ("client", "reader"):
            actors[words[0]].append(words[1])
        elif words[0] in ("open", "close"):
            rows.append(f"{number} {words[1]} {words[0]} = ?")
        elif words[0] == "phase":
            number, phase = number + 1, []
        elif words[0] == "end":
            order = [*actors["card"], *actors["client"], *actors["reader"]]
            phase.sort(key=lambda it: order.index(it[0]))
            rows += [f"{number} {' '.join(it[:2] + [str(int(count)) for count in it[2:]])} = ?" for it in phase]
            phase = None
        elif phase is not None:
            phase.append(words)
    return rows


def named_files(script, at):
    """The files that a script names, each with the path from here where it stands beside the script."""
    names = [it[0] for it in expected.clients_of(script).values()] + [it for it in [expected.card_of(script).get("capture")] if it]
    return {name: os.path.join(os.path.dirname(at), name) for name in names}


def files_given(text, script, sounds):
    """The WAV files that are given for a script, by the names that it has for them. All that it names must be given."""
    left, found = named_files(text, script), {}
    for path in sounds:
        data = command.bytes_of(path)
        name = next((it for it, beside in left.items() if path in (it, beside) or os.path.realpath(path) == os.path.realpath(beside)), None)
        if name is None:
            raise command.Refused(f"{script} doesn't name {path}")
        if name == "s" or not corpus.is_within(name):
            raise command.Refused(f"a case can't have the file {name} of {script}: its name must be one within a folder, and not s")
        found[name] = data
    missing = [it for it in left if it not in found]
    if missing:
        raise command.Refused(f"{script} names {' and '.join(missing)}, and no such file is given behind it")
    return found


def skeleton(name, script, *sounds):
    """Prints a case whose answers are `?`, each to be replaced."""
    if not name or not name.isprintable():
        raise command.Refused(f"{name!r} is no name of a case, which is a line of its own")
    data = command.bytes_of(script)
    text = data.decode("latin-1")
    try:
        expected.check_script(text)
    except expected.NotDerived as cause:
        raise command.Refused(f"{script}: {cause}") from cause
    lines = [f"case {name}", "call run s o", "file s", *corpus.text_lines(data)]
    for file, sound in files_given(text, script, sounds).items():
        lines += [f"file {file}", *corpus.wav_lines(sound)]
    first = int(expected.card_of(text).get("lap", 0)) * int(expected.card_of(text).get("ring", 8192))
    lines += ["out", "  dmixlab 1", *(f"  {row}" for row in rows_of(text)), "  ? (segments, runs)", f"  played {first} ?", "  end"]
    print("\n".join(lines))
    return 0


def is_incomplete(case):
    """Whether the sounds of a case follow from its report and aren't there."""
    return case.words[:1] == [b"run"] and not case.status and not case.leaves and case.pattern is None and not case.has_faults


def lines_completing(case):
    """The lines that a case lacks: of each sound that follows from its report, where the case doesn't say it otherwise."""
    lines = []
    for name, data in sounds_of(case, read_report.parse(case.out.decode("latin-1"))).items():
        if name not in {**case.mixed, **case.recorded} and case.files.get(name) != data:
            lines += [f"leaves {name}", *corpus.wav_lines(data)]
    return lines


def refuse_completing(case, line, why):
    """Refuses a file with a case whose sounds don't follow."""
    raise command.Refused(f"{case.path}: line {line}: the case {case.name!r}: {why}")


def complete(path):
    """Prints a file of cases, in which each case of a run that has no sounds has those that follow from its report."""
    lines_after = {}
    for case in filter(is_incomplete, corpus.read(path).cases):
        try:
            lines_after[case.last] = lines_completing(case)
        except read_report.NotAReport as cause:
            line = case.out_lines[cause.line - 1] if cause.line <= len(case.out_lines) else case.last
            refuse_completing(case, line, "each ? of a skeleton is to be replaced" if "?" in cause.why else f"its report: {cause.why}")
        except expected.NotDerived as cause:
            refuse_completing(case, case.line, f"{cause}; its lines `leaves` are to be written by hand")
    with open(path, encoding="utf-8", newline="") as file:
        text = file.read()
    whole = text if text.endswith("\n") else f"{text}\n"
    for number, line in enumerate(whole[:-1].split("\n"), 1):
        print("\n".join([line, *lines_after.get(number, [])]))
    return 0


# each call, with the fewest and the most words that it takes
CALLS = {"run": (run, 2, None), "unpack": (unpack, 2, None), "skeleton": (skeleton, 2, None), "complete": (complete, 1, 1)}


def main(words):
    if words in (["--help"], ["-h"]):
        print(__doc__.strip())
        return 0
    name, given = (words[0] if words else ""), words[1:]
    command.check_known(name, CALLS, "call")
    call, least, most = CALLS[name]
    if not least <= len(given) <= (most or len(given)):
        raise command.Refused(f"{name} has other words; cases.py --help has them")
    try:
        return call(*given)
    except (corpus.NotACorpus, read_report.NotAReport) as cause:
        raise command.Refused(cause) from cause
    except UnicodeDecodeError as cause:
        raise command.Refused(f"a file isn't text: {cause}") from cause
    except OSError as cause:
        raise command.Refused(f"can't read {cause.filename}: {cause.strerror}") from cause


if __name__ == "__main__":
    command.run(lambda: main(sys.argv[1:]))
