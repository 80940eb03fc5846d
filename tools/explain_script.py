"""What a refusal of a script, or of a text of `refine`, means: the line, the word, what can be there, and the words that are near."""
import difflib
import itertools
import re

from script_forms import CALLS, FORMS, FRAMES, KEYWORDS, LAP_LAST, draft_before, fault_in, lines_of, spelled
from show_text import marked_line, shown_start

RINGS = range(64, 16385)
# how a file that isn't a script begins, and what to do
STRANGE = {
    b"\xef\xbb\xbf": "the file begins with a byte order mark, which is no part of a script: `tail -c +4` drops it",
    b"\xff\xfe": "the file is UTF-16: `iconv -f UTF-16 -t UTF-8` makes a script of it",
    b"\xfe\xff": "the file is UTF-16: `iconv -f UTF-16 -t UTF-8` makes a script of it",
    b"RIFF": "the file is a WAV file and no script; the script names it, in a line `client NAME FILE`",
    b"\x7fELF": "the file is a program and no script",
}


KINDS = {"card": "the card", "client": "a client", "reader": "a reader"}


def shown_word(word):
    return shown_start(word.encode("latin-1"))


def near(word, known):
    """The known word that is nearest to another one, or None."""
    lower = word.lower()
    found = [lower] if lower in known else difflib.get_close_matches(lower, known, 1, 0.6)
    return found[0] if found else None


def plain_digits(word):
    """The number that a word with a unit, marks or a sign may mean, or None."""
    found = re.fullmatch(r"\+?([0-9][0-9,_.']*)(k?)(hz|frames)?", word, re.I)
    if not found:
        return None
    digits = re.sub(r"[,_']", "", found[1])
    if "." in digits and not found[2]:
        return None
    try:
        value = float(digits) * 1000 if found[2] else int(digits)
    except ValueError:
        return None
    return str(int(value)) if value == int(value) else None


def name_like(word):
    """A name of the right form that is like another word, or None."""
    like = re.sub(r"[^a-z0-9_]", "_", word.lower())[:32]
    like = like if like[:1].isalpha() else f"c{like}"[:32]
    is_like = re.search("[a-z0-9]", word.lower()) and re.fullmatch(r"[a-z][a-z0-9_]*", like)
    return like if is_like and like not in KEYWORDS else None


def of_word(fault, word, line, draft):
    """What to write instead of a word that isn't known."""
    if "=" in word:
        key, _, value = word.partition("=")
        return [f"a key and what follows it are two words: `{key} {value}`"] if key in fault.known else []
    if not word.isascii() or not word.isprintable():
        return [f"the word has bytes that aren't visible ASCII: {shown_word(word)}"]
    if fault.place == 1 and draft.phase and draft.kind(line.words[0]):
        others = [it for it in CALLS if word in CALLS[it]]
        if others:
            kind = KINDS[draft.kind(line.words[0])]
            return [f"`{word}` is a call of {' or '.join(KINDS[it] for it in others)}, and `{line.words[0]}` is {kind}"]
    like = near(word, fault.known)
    said = [f"the nearest word is `{like}`"] if like else []
    if line.words[0] == "client" and fault.place == 3 and not like:
        said.append(f"a file's name has no blank: `{shown_word(word)}` is read as a key, since the name ends before it")
    return said


def joined_bindings(line, place):
    """The bindings that some words make without the blanks between them, or None where there are no blanks or that gives none."""
    words = itertools.takewhile(lambda it: re.fullmatch("[0-9,]+", it), line.words[place:])
    joined = "".join(words)
    return joined if joined != line.words[place] and re.fullmatch("[0-9]+(,[0-9]+)+", joined) else None


def of_number(fault, word, line):
    """What to write instead of a word that is no number."""
    joined = joined_bindings(line, fault.place) if line.words[fault.place - 1] == "bindings" else None
    if joined:
        return [f"without blanks it would be `{joined}`"]
    if "\r" in word:
        return ["the word has a carriage return, as in a file whose lines end with that alone: tr '\\r' '\\n' makes a script of it"]
    like = plain_digits(word)
    return [f"digits alone would be `{like}`"] if like and like != word else []


def of_name(word):
    like = name_like(word)
    return [f"`{like}` is one"] if like and like != word else []


def of_file(word):
    if len(word) > 255:
        return [f"the name has {len(word)} bytes"]
    other = "".join(it for it in word if not "!" <= it <= "~")
    return [f"these of its characters aren't visible ASCII: {shown_word(other)}"]


def of_fault(fault, line, draft):
    """The sentences on the word of a line that can't be there."""
    if fault.place >= len(line.words):
        return [fault.expected]
    word = line.words[fault.place]
    found = {
        "Word": lambda: of_word(fault, word, line, draft),
        "Number": lambda: of_number(fault, word, line),
        "Name": lambda: of_name(word),
        "File": lambda: of_file(word),
    }
    return [*found.get(fault.why, list)(), fault.expected]


def of_fit(line, draft, command):
    """What doesn't fit together on a card's line, a slave's, or a client's."""
    if line.words[0] == "client":
        ring = draft.number("ring", 8192)
        return [f"the ring has {ring} frames, so a lead is 0 to {ring - 1}; the card's period is the lead where the line gives none"]
    own = draft_before([line], 2)
    period, ring = own.number("period", 1024), own.number("ring", 8192)
    otherwise = "" if command == "refine" else ", as given or as they are where they aren't given"
    return [f"the period is {period} and the ring {ring} frames{otherwise}", *fitting_sizes(period, ring)]


def fitting_sizes(period, ring):
    """The ring that is nearest to one and fits a period, and the period that is nearest to one and fits the ring."""
    said = []
    rings = [it for it in RINGS if it % period == 0 and it >= 2 * period]
    periods = [it for it in range(16, ring // 2 + 1) if ring % it == 0]
    if rings:
        said.append(f"with this period a ring can be {min(rings, key=lambda it: abs(it - ring))}")
    if periods:
        said.append(f"with this ring a period can be {min(periods, key=lambda it: abs(it - period))}")
    return said


def of_whole_line(why, number, line, draft, command):
    """The sentences on a line whose words can all be there, but not together, or not after the lines above."""
    if why == "Fit":
        return of_fit(line, draft, command)
    if why == "NameTwice":
        return [f"line {draft.actors[line.words[1]][1]} declares it first"]
    if why in ("BindingRange", "BindingTwice"):
        channels = draft.number("channels", 2)
        return [f"the card has {channels} channels, so they are 0 to {channels - 1}" if channels > 1 else "the card has one channel, 0"]
    if why == "Unplugged":
        return [f"line {draft.gone} unplugs it"]
    if why == "Frames":
        return [f"the lines above play {draft.played} frames, so at most {FRAMES.most - draft.played} are left"]
    if why == "LapEnd":
        lap, ring = draft.number("lap", 0), draft.number("ring", 8192)
        left = (LAP_LAST - lap) * ring - draft.played
        has = f"the card's line has `lap {lap}` and a ring of {ring} frames"
        return [f"{has}, so it plays at most {(LAP_LAST - lap) * ring} frames, of which {left} are left here"]
    if why == "TooMany":
        return ["this is phase 4,097"] if line.words[0] == "phase" else [f"this is {line.words[0]} 65"]
    return []


def form_of(line, draft):
    """The form of a line, where its first word tells it."""
    first = line.words[0]
    if draft.phase and draft.kind(first):
        calls, call = CALLS[draft.kind(first)], (line.words[1:] or [""])[0]
        return f"{first} {spelled(calls)[list(calls).index(call)]}" if call in calls else None
    return FORMS.get(first)


def strange_text(text):
    """What a file is whose first bytes tell that it is no script, or None."""
    said = "the file has zero bytes, so it is no text" if b"\0" in text[:1000] else None
    return next((said for begin, said in STRANGE.items() if text.startswith(begin)), said)


def of_whole_text(why, text):
    """The sentences on line 0, the text as a whole."""
    if why == "TooLong":
        return ["it has more than 1,048,576 bytes" if text is None else f"its first bytes are {shown_start(text[:24])}"]
    return ["it is empty" if text == b"" else "it has blanks and comments alone"] if text is not None else []


def explain_script(name, text, number, why, command):
    """The lines that show a refused line, and the sentences on it. The text is None where it can't be read again; `why` is the WHY's word."""
    if number == 0 or text is None:
        return [], of_whole_text(why, text) if number == 0 else []
    lines = lines_of(text)
    if number > len(lines) or not lines[number - 1].words:
        return [], ["the file has no such line by now"]
    line, draft = lines[number - 1], draft_before(lines, number)
    fault = fault_in(lines, number, command)
    fits = fault is not None and fault.why == why
    said = of_fault(fault, line, draft) if fits else of_whole_line(why, number, line, draft, command)
    if why in ("Missing", "Extra") and (form := form_of(line, draft)):
        said.append(f"the form of the line is `{form}`")
    if number == 1 and why in ("Word", "Number") and strange_text(text):
        said = [strange_text(text)]
    if fits and (rest := line.glued_comment()) and why == "Missing":
        said.append(f"`{shown_start(rest)}` is a comment: one begins at a `#` also within a word")
    return [f"{name}, line {number}:", *(f"    {it}" for it in marked_line(line.raw, line.span(fault.place) if fits else None))], said
