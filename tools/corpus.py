"""Cases of a corpus: calls of the program with the files that they find and what they must leave, as docs/CASES.md has them. This reader
is written apart from the one in crates/sessions."""
from __future__ import annotations

import os
import re
import struct
from dataclasses import dataclass, field

# the most samples of a run, which is more than a WAV file can have that is read
MOST_SAMPLES = 2**26
# what a line of content begins with
MARKS = " |*=~<"
SECTIONS = ("file", "leaves", "bytes", "out", "errors", "any-order")
FAULTS = ("shelf-fails", "puts-fail", "errors-fail")


class NotACorpus(ValueError):
    """A line isn't of the format: its file, its number and why."""

    def __init__(self, path, line, why):
        super().__init__(f"{path}: line {line}: {why}")


@dataclass
class Case:
    """A call of the program with these words over these files, and what it must leave: a status, what its outputs took, and the files
    that are other ones than before."""

    name: str
    path: str
    line: int  # of the file of cases, where it begins
    last: int = 0  # the line of its last item or content
    words: list[bytes] = field(default_factory=list)
    files: dict[str, bytes] = field(default_factory=dict)
    has_faults: bool = False  # a call of the shelf or a put is to fail, which real files can't be told
    status: int = 0
    out: bytes = b""
    out_lines: list[int] = field(default_factory=list)  # of the file of cases, for each line of `out`
    pattern: list[str] | None = None  # in place of `out`: lines with `?` for a word and `...` for any lines
    errors: bytes = b""
    leaves: dict[str, bytes] = field(default_factory=dict)
    mixed: dict[str, tuple[int, int]] = field(default_factory=dict)  # files that are the mix of the report's segments
    recorded: dict[str, tuple[str, int, int]] = field(default_factory=dict)  # files that have the frames of a reader's runs
    may_lack_memory: bool = False  # where memory runs out it may leave the first part of that

    def after(self) -> dict[str, bytes]:
        """The files that must be there afterwards, without those that the report decides."""
        return {**self.files, **self.leaves}


@dataclass
class Corpus:
    """The cases of a file; whether each must fail, as a test of who runs them; and of such a file the line that can't be read, if any."""

    cases: list[Case]
    must_fail: bool = False
    refusal: NotACorpus | None = None


def number(text: str, what: str, most: int = 2**64 - 1) -> int:
    """A number up to a limit."""
    if not re.fullmatch("[0-9]{1,20}", text) or int(text) > most:
        raise ValueError(f"{text!r} isn't {what}, which is 0 to {most}")
    return int(text)


def words_of(text: str, form: str) -> list[str]:
    """As many words as a form has; where it ends with dots, the last one is all that is left."""
    count = len(form.split())
    words = text.split(" ", count - 1 if form.endswith("..") else -1)
    if len(words) != count or "" in words[:1]:
        raise ValueError(f"{form} must be here, and not {text!r}")
    return words


def piece(text: str, count: int) -> bytes:
    """The bytes of what stands behind a backslash."""
    letter, rest = text[:1], text[1:]
    if letter == "x" and re.fullmatch("[0-9A-Fa-f]{2}", rest[:2]):
        return bytes([int(rest[:2], 16)]) + rest[2:].encode()
    known = {"n": b"\n", "b": b"\\", "#": b"%d" % count, "+": b"%d" % (count + 1)}
    if letter not in known:
        raise ValueError(f"\\{text[:3]} is no escape; there are: \\n, \\b, \\xHH, and of a line that begins with * also \\# and \\+")
    return known[letter] + rest.encode()


def escaped(text: str, count: int = 0) -> bytes:
    """The bytes of a text with escapes."""
    first, *pieces = text.split("\\")
    return first.encode() + b"".join(piece(it, count) for it in pieces)


def samples(text: str) -> bytes:
    """The samples of runs `COUNT*FIRST/STEP`, in two bytes each."""
    out = []
    for word in filter(None, text.split(" ")):
        found = re.fullmatch(r"(?:([0-9]{1,9})\*)?(-?[0-9]{1,5})(?:/(-?[0-9]{1,5}))?", word)
        if not found:
            raise ValueError(f"{word!r} is no run of samples, as 5, 64*5 or 64*5/1")
        count, first, step = (otherwise if it is None else int(it) for it, otherwise in zip(found.groups(), (1, 0, 0)))
        if not all(-32768 <= it <= 32767 for it in (first, step)):
            raise ValueError(f"{word!r} has a number that isn't one of 16 bits, -32768 to 32767")
        if count > MOST_SAMPLES:
            raise ValueError(f"{word!r} has more than {MOST_SAMPLES} samples")
        out += [(first + k * step + 32768) % 65536 - 32768 for k in range(count)]
    return struct.pack(f"<{len(out)}h", *out)


def wav(channels: int, rate: int, data: bytes) -> bytes:
    """The canonical WAV file of 16-bit samples."""
    form = struct.pack("<HHIIHH", 1, channels, rate, 2 * channels * rate % 2**32, 2 * channels % 2**16, 16)
    return b"RIFF" + struct.pack("<I", 36 + len(data)) + b"WAVEfmt \x10\0\0\0" + form + b"data" + struct.pack("<I", len(data)) + data


def repeated(text: str) -> bytes:
    """`COUNT FIRST TEXT`: the text so often, with FIRST, FIRST + 1 and so on in it."""
    count, first, text = words_of(text, "COUNT FIRST TEXT..")
    first = number(first, "the first number")
    return b"".join(escaped(text, first + k) for k in range(number(count, "a count", 10**9)))


def shape(channels: str, rate: str) -> tuple[int, int]:
    """The channels and the rate that two words are."""
    return number(channels, "a number of channels", 2**16 - 1), number(rate, "a rate", 2**32 - 1)


def sound(text: str) -> bytes:
    """`CHANNELS RATE RUN..`: a WAV file."""
    channels, rate, *runs = text.split(" ", 2) if " " in text else words_of(text, "CHANNELS RATE")
    return wav(*shape(channels, rate), samples("".join(runs)))


def content(line: str, shared: dict[str, bytes]) -> bytes:
    """The bytes that a line of content stands for."""
    mark, text = line[0], line[1:]
    if mark == "|":
        return escaped(text)
    text = text[1:] if text.startswith(" ") else text
    if mark == " ":
        return text.encode() + b"\n"
    if mark == "<":
        if text not in shared:
            raise ValueError(f"no line `bytes {text}` is above")
        return shared[text]
    return {"*": repeated, "=": samples, "~": sound}[mark](text)


def with_escapes(data: bytes) -> str:
    """Bytes as a text with escapes, in which each other character is visible."""
    return "".join({10: r"\n", 92: r"\b"}.get(it) or (chr(it) if 32 < it < 127 else rf"\x{it:02x}") for it in data)


def text_lines(data: bytes) -> list[str]:
    """A text as lines of content."""
    lines = []
    for it in re.findall(rb"[^\n]*\n|[^\n]+", data):
        shown = it[:-1].decode("utf-8", "replace")
        is_plain = it.endswith(b"\n") and shown.isprintable() and shown.encode() == it[:-1]
        lines.append(f"  {shown}" if is_plain else f"|{with_escapes(it)}")
    return lines


def body_of(data: bytes) -> int:
    """Where the samples of a WAV file begin; its end, where they can't be found."""
    at = 12
    while data[:4] == b"RIFF" and at + 8 <= len(data):
        name, size = struct.unpack_from("<4sI", data, at)
        if name == b"data":
            return at + 8
        at += 8 + size + size % 2
    return len(data)


def wav_lines(data: bytes) -> list[str]:
    """A WAV file, or any other one, as lines of content that stand for exactly its bytes."""
    if len(data) >= 44 and len(data) % 2 == 0:
        channels, rate = struct.unpack_from("<HI", data, 22)
        if wav(channels, rate, data[44:]) == data:
            return [f"~ {channels} {rate} {runs_of(data[44:])}".rstrip()]
    first = body_of(data)
    last = len(data) - (len(data) - first) % 2
    pieces = [f"|{with_escapes(data[:first])}", f"= {runs_of(data[first:last])}", f"|{with_escapes(data[last:])}"]
    return [it for it in pieces if it not in ("|", "= ")]


def runs_of(data: bytes) -> str:
    """Samples as runs of one step."""
    values, words, at = struct.unpack(f"<{len(data) // 2}h", data), [], 0
    while at < len(values):
        end, step = at + 1, 0
        if end < len(values) and -32768 <= values[end] - values[at] <= 32767:
            step = values[end] - values[at]
            while end < len(values) and values[end] - values[end - 1] == step:
                end += 1
            if end - at == 2 and step:
                end = at + 1
        count = end - at
        words.append((f"{count}*" if count > 1 else "") + str(values[at]) + (f"/{step}" if step and count > 1 else ""))
        at = end
    return " ".join(words)


def is_within(name: str) -> bool:
    """Whether a file of this name is in a case's folder."""
    return bool(name) and not name.startswith(("/", "..")) and os.path.normpath(name) == name and "\0" not in name


class Reading:
    """What is read of a file of cases so far."""

    def __init__(self, path):
        self.file = os.path.basename(path)
        self.cases: list[Case] = []
        self.shared: dict[str, bytes] = {}
        self.put = None
        self.must_fail = False

    def case(self, word):
        """The case that a line is of."""
        if not self.cases:
            raise ValueError(f"{word} before any case")
        return self.cases[-1]

    def begin(self, word, name, line):
        """A case; `also` has the words and files of the one before it, and `then` what that one leaves."""
        earlier = next((it.line for it in self.cases if it.name == name), None)
        if not name or earlier:
            raise ValueError(f"the case of line {earlier} has this name" if earlier else f"a name must follow {word}")
        case = Case(name, self.file, line, line)
        if word != "case":
            before = self.case(word)
            if word == "then" and (before.mixed or before.recorded):
                raise ValueError("then can't follow a case with mixed or recorded")
            case.words = before.words
            case.files = dict(before.files if word == "also" else before.after())
        self.cases.append(case)
        self.put = None

    def section(self, word, name):
        """A section, whose lines of content follow."""
        case = None if word == "bytes" else self.case(word)
        if word == "any-order":
            case.pattern = []
            self.put = lambda data, _: case.pattern.extend(data.decode("latin-1").removesuffix("\n").split("\n") if data else ())
        elif word == "out":
            self.put = lambda data, line: self.put_out(case, data, line)
        elif word == "errors":
            self.put = lambda data, _: setattr(case, word, getattr(case, word) + data)
        else:
            held = self.shared if word == "bytes" else case.files if word == "file" else case.leaves
            if not name or (word != "bytes" and not is_within(name)):
                raise ValueError(f"a name within the case's folder must follow {word}, and not {name!r}")
            held[name] = b""
            self.put = lambda data, _: held.__setitem__(name, held[name] + data)

    @staticmethod
    def put_out(case, data, line):
        """Content of `out`, of which each line is one of the file of cases."""
        case.out += data
        case.out_lines += [line] * data.count(b"\n")

    def item(self, word, rest):
        """A line of a case that has no content."""
        if word == "must-fail":
            self.must_fail = True
            return
        case, self.put = self.case(word), None
        if word == "call":
            case.words = [b"" if it == "''" else escaped(it) for it in rest.split(" ")]
        elif word == "status":
            case.status = number(rest, "a status", 255)
        elif word in FAULTS:
            case.has_faults = bool([number(it, "the number of a call") for it in rest.split(" ")])
        elif word == "memory":
            case.may_lack_memory = True
        elif word == "mixed":
            name, *words = words_of(rest, "NAME CHANNELS RATE")
            case.mixed[name] = shape(*words)
        elif word == "recorded":
            name, reader, *words = words_of(rest, "NAME READER CHANNELS RATE")
            case.recorded[name] = reader, *shape(*words)
        else:
            raise ValueError(f"{word} isn't known")

    def add(self, line, number_of_line):
        """A line of the file."""
        if line[0] == "#":
            return
        word, _, rest = line.partition(" ")
        if line[0] in MARKS:
            if self.put is None:
                raise ValueError("content must stand behind a line that takes it, as file NAME, out or leaves NAME")
            self.put(content(line, self.shared), number_of_line)
        elif word in ("case", "also", "then"):
            self.begin(word, rest, number_of_line)
        elif word in SECTIONS:
            self.section(word, rest)
        else:
            self.item(word, rest)
        if self.cases:
            self.cases[-1].last = number_of_line


def read(path: str) -> Corpus:
    """The cases of a file. A line that can't be read ends it and isn't of a case that is run; only a file whose cases must fail may have
    one."""
    reading = Reading(path)
    with open(path, encoding="utf-8", newline="") as file:
        for number_of_line, line in enumerate(file.read().split("\n"), 1):
            if not line:
                continue
            try:
                reading.add(line, number_of_line)
            except ValueError as error:
                refusal = NotACorpus(reading.file, number_of_line, error)
                if not reading.must_fail:
                    raise refusal from error
                return Corpus(reading.cases[:-1], True, refusal)
    return Corpus(reading.cases, reading.must_fail)
