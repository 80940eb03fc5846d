"""How bytes and sentences are shown on a terminal: nothing that comes from a file or a word can move its cursor or change its colours."""
import os
import textwrap

WIDTH_MOST, WIDTH_LEAST = 110, 40
# how many columns before and behind a word, and how many of the word, are shown of a long line
AROUND, WORD_MOST = 40, 60


def shown(raw):
    """Bytes as a text in which what isn't visible is `\\x1b` and the like, for each byte of it."""
    parts = []
    for char in raw.decode("utf-8", "surrogateescape"):
        is_seen = char.isprintable()
        parts.append(char if is_seen else "".join(f"\\x{byte:02x}" for byte in char.encode("utf-8", "surrogateescape")))
    return "".join(parts)


def shown_name(name):
    """A file's name, as the operating system gives it."""
    return shown(os.fsencode(name))


def fitting(raw, columns):
    """How many of the first bytes have a text within so many columns."""
    count, used = 0, 0
    while count < len(raw) and used < columns:
        used += len(shown(raw[count : count + 1])) if raw[count] < 128 else 4
        count += 1
    return count


def shown_start(raw, columns=WORD_MOST):
    """The bytes as a text; of a long one the first, and two dots."""
    count = fitting(raw, columns)
    return shown(raw[:count]) + (" .." if count < len(raw) else "")


def marked_line(raw, span=None):
    """A line of a file, tabs as blanks, and a line with marks under the bytes of the span (its first, and the one behind its last); of a
    long line what is around the span, between two dots."""
    raw = raw.replace(b"\t", b" ")
    first, behind = span or (0, 0)
    begin, end = 0, len(raw)
    if fitting(raw, 3 * AROUND) < len(raw):
        begin = first - fitting(raw[:first][::-1], AROUND)
        behind = min(behind, first + fitting(raw[first:], WORD_MOST))
        end = behind + fitting(raw[behind:], 2 * AROUND)
    head = ".. " if begin else ""
    lines = [head + shown(raw[begin:end]) + (" .." if end < len(raw) else "")]
    if span:
        before, under = shown(raw[begin:first]), shown(raw[first : min(behind, end)])
        lines.append(" " * (len(head) + len(before)) + "^" * max(1, len(under)))
    return lines


def width_of(descriptor):
    """How wide the texts are that are shown on this terminal."""
    try:
        columns = os.get_terminal_size(descriptor).columns
    except OSError:
        columns = 80
    return max(WIDTH_LEAST, min(WIDTH_MOST, (columns or 80) - 1))


def folded(sentence, width):
    """A sentence in lines; words in backticks, as the manual has them, are in quotes here."""
    return textwrap.wrap(sentence.replace("`", "'"), width, subsequent_indent="  ", break_long_words=False, break_on_hyphens=False)
