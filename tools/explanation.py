"""What a line means that the program put on standard error, and what to do: for tools/explain.py, by the words of the call."""
import os
import re

from explain_check import explain_no
from explain_conf import explain_conf
from explain_file import explain_read, explain_wav, explain_write, script_text
from explain_script import explain_script, near
from refusals import row_of
from show_text import folded, shown, shown_name

# the lines that the program can put; a name in one may have any byte but zero, also a line feed
REFUSED = re.compile(rb"dmixlab: (script|conf) line (\d+): ((\w+)(?: \d+)?)\n\Z")
WAV = re.compile(rb"dmixlab: wav (.*): ((\w+)(?: (\d+))?)\n\Z", re.S)
READ = re.compile(rb"dmixlab: read (.*)\n\Z", re.S)
NO = re.compile(rb"dmixlab: no: line (\d+)\n\Z")
OTHER = re.compile(rb"dmixlab: (words|write|memory)\n\Z")
# the commands, with their words
COMMANDS = {
    "run": ["SCRIPT", "OUT"],
    "check": ["SCRIPT", "REPORT", "OUT"],
    "refine": ["TEXT"],
    "conf": ["FILE", "NAME"],
    "make": ["SEED", "CLIENTS", "PHASES"],
    "--help": [],
    "--version": [],
}
# a sentence that begins so stands behind the row's, in place of its own
TO_DO = "what to do: "
MADE = {"SEED": (0, 2**64 - 1), "CLIENTS": (1, 64), "PHASES": (1, 1000)}


class Explanation:
    """What is shown behind the program's line: lines as they are, sentences on this refusal, what its row of the table says of each such one,
    and commands to be copied. A message whose sentences say what it is about needs no more of its row, and none that says what to do
    needs the row's words for that."""

    def __init__(self, group, why, lines=(), said=(), commands=()):
        word, *number = why.split()
        self.row, self.number = row_of(group, word), (number or [None])[0]
        self.lines, self.commands = list(lines), list(commands)
        self.to_do = [it for it in said if it.startswith(TO_DO)]
        self.said = [it for it in said if not it.startswith(TO_DO)]

    def of_row(self):
        """What the row says, with the number of this refusal in place of its letter."""
        if not self.row or (self.row.group == "message" and self.said):
            return []
        head, means = f"{self.row.why}: ", self.row.means
        if self.number:
            means = re.sub(rf"\b{self.row.why.split()[-1]}\b", self.number, means)
            head = f"{self.row.word} {self.number}: "
        says = f"{means[0].upper()}{means[1:]}." if self.row.group == "message" else f"{head}{means}."
        return [says, *([] if self.to_do else [f"What to do: {self.row.do}."])]

    def text(self, width):
        said, to_do = [[f"{it[0].upper()}{it[1:]}." for it in these] for these in (self.said, self.to_do)]
        sentences = [*said, *self.of_row(), *to_do]
        parts = [*self.lines, *(line for it in sentences for line in folded(it, width)), *(f"    {it}" for it in self.commands)]
        return "".join(f"{it}\n" for it in parts)


def of_made(word, number):
    """What is wrong with a number of `make`, or None."""
    least, most = MADE[word]
    is_number = re.fullmatch("[0-9]{1,20}", number)
    return None if is_number and least <= int(number) <= most else f"{word} is a number from {least} to {most}"


def of_file_word(word, text):
    """What is wrong with a word for a file, or None."""
    raw = os.fsencode(text)
    if not 1 <= len(raw) <= 4096:
        return f"{word} has {len(raw)} bytes"
    try:
        raw.decode()
    except UnicodeDecodeError:
        return f"{word} isn't UTF-8: {shown(raw)}"
    return None


def of_words(words):
    """What is wrong with the words of a call, as far as can be told."""
    if not words:
        return ["there is no word"]
    command, given = words[0], words[1:]
    if command in ("-h", "-help", "help", "-?", "--usage") or {"--help", "-h"} & set(given):
        return ["the word for help is `--help`, alone"]
    if command in ("-V", "-v", "version"):
        return ["the word for the version is `--version`, alone"]
    if command not in COMMANDS:
        like = near(command, COMMANDS)
        return [f"`{shown_name(command)}` is no command" + (f"; the nearest is `{like}`" if like else "")]
    if len(given) != len(COMMANDS[command]):
        takes = " and ".join(COMMANDS[command]) or "no more words"
        return [f"`{command}` takes {takes}; {len(given)} {'is' if len(given) == 1 else 'are'} given"]
    for word, text in zip(COMMANDS[command], given):
        why = of_made(word, text) if word in MADE else of_file_word(word, text) if word != "NAME" else None
        if why:
            return [why]
    if command == "conf":
        return [f"NAME isn't 1 to 64 visible ASCII characters: {shown_name(given[-1])}" if given[-1] else "NAME is empty"]
    return []


def usage():
    """The forms of the command line."""
    return [" ".join(["dmixlab", command, *words]) for command, words in COMMANDS.items()]


def said_of_words(words):
    """The sentences on words that are no command, of which the last says where more is."""
    said = of_words(words)
    return [*said, "`dmixlab --help` says what each of these does"] if said else []


def of_text(found, words):
    """The explanation of a refused text."""
    group, number, why, word = found[1].decode(), int(found[2]), found[3].decode(), found[4].decode()
    name = words[1] if len(words) > 1 else ""
    text, seen = script_text(name), shown_name(name)
    if group == "conf":
        return Explanation("conf", why, *explain_conf(seen, text, number, word, words[2] if len(words) > 2 else ""))
    return Explanation("script", why, *explain_script(seen, text, number, word, words[0] if words else "run"))


def explanation_of(said, words, had_output=True):
    """The explanation of what the program put on standard error, or None where that is no line of its own."""
    script = words[1] if words[:1] in (["run"], ["check"]) and len(words) > 1 else None
    if found := REFUSED.match(said):
        return of_text(found, words)
    if found := WAV.match(said):
        number = int(found[4]) if found[4] else None
        return Explanation("wav", found[2].decode(), *explain_wav(os.fsdecode(found[1]), found[3].decode(), number, script))
    if found := READ.match(said):
        return Explanation("message", "read", *explain_read(os.fsdecode(found[1]), script))
    if found := NO.match(said):
        return Explanation("message", "no", *explain_no(words[2] if len(words) > 2 else "", int(found[1])))
    found = OTHER.match(said)
    if not found:
        return None
    word = found[1].decode()
    if word == "words":
        return Explanation("message", word, (), said_of_words(words), usage())
    return Explanation("message", word, *(explain_write(words, had_output) if word == "write" else ((), ())))
