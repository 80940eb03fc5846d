"""The lines of scripts and of texts of `refine`: their words, keys and ranges, and the first word of a line that can't be where it is.

docs/SCRIPTS.md has the same in sentences, and maintenance/check_refusals.py compares the tables with the program's own."""
import re

NAME = re.compile(r"[a-z][a-z0-9_]{0,31}\Z")
NUMBER = re.compile(r"[0-9]{1,19}\Z")
FILE_MOST = 255


class Number:
    """A number of a range. Its most can be a text, where other words decide, and `never` can be in its place."""

    def __init__(self, least, most, unit="", never=False):
        self.least, self.most, self.unit, self.never = least, most, unit, never

    def __str__(self):
        unit = f" {self.unit}" if self.unit else ""
        span = f"{self.least} to {self.most}{unit}" if isinstance(self.most, int) else f"{self.least}{unit} to {self.most}"
        return span + (", or `never`" if self.never else "")

    def why(self, word):
        """Why a word can't be this number, or None."""
        if self.never and word == "never":
            return None
        if not NUMBER.match(word):
            return "Number"
        is_above = isinstance(self.most, int) and int(word) > self.most
        return "Range" if int(word) < self.least or is_above else None


class Words:
    """One of some words."""

    def __init__(self, *words):
        self.words = words

    def __str__(self):
        return " or ".join(f"`{it}`" for it in self.words)

    def why(self, word):
        return None if word in self.words else "Word"


class FileName:
    """A file's name."""

    def __str__(self):
        return f"a file's name, 1 to {FILE_MOST} visible ASCII characters"

    def why(self, word):
        is_name = len(word) <= FILE_MOST and all("!" <= it <= "~" for it in word)
        return None if is_name else "File"


class Channels:
    """Numbers of channels."""

    def __str__(self):
        return "channels of the card, joined by commas without a blank, as `0,1`"

    def why(self, word):
        found = [Number(0, 4294967295).why(it) for it in word.split(",")]
        return next((it for it in found if it), None)


FRAMES = Number(0, 4194304, "frames")
STEPS = Number(0, 1000000, "steps")
CARD_KEYS = {
    "channels": Number(1, 8),
    "rate": Number(4000, 192000, "Hz"),
    "period": Number(16, "half the ring, which it divides", "frames"),
    "ring": Number(64, 16384, "frames"),
    "places": Number(1, 64),
    "lap": Number(0, 4294967294),
    "capture": FileName(),
    "share": Words("dmix", "dshare"),
}
READER_KEYS = {
    "bindings": Channels(),
    "buffer": Number(32, 16384, "frames"),
    "period": Number(16, 8192, "frames"),
    "start": Number(1, 65536, "frames"),
    "stop": Number(1, 65536, "frames", never=True),
}
CLIENT_KEYS = {**READER_KEYS, "lead": Number(0, "the ring less 1", "frames"), "plug": Words("linear")}
SLAVE_KEYS = {it: CARD_KEYS[it] for it in ("channels", "rate", "period", "ring")}
KEYS = {"card": CARD_KEYS, "client": CLIENT_KEYS, "reader": READER_KEYS}
# each call with the number after it, where it has one
BOTH_CALLS = {"start": None, "sync": None, "avail": None, "drop": None, "prepare": None, "pause": None, "die": STEPS}
CALLS = {
    "card": {"play": FRAMES, "unplug": None},
    "client": {"write": FRAMES, **BOTH_CALLS, "delay": None, "drain": None, "resume": None, "rewind": FRAMES, "rewindable": None},
    "reader": {"read": FRAMES, **BOTH_CALLS},
}
# the last lap in which a card plays no frame
LAP_LAST = 4294967294
KEYWORDS = ("card", "client", "reader", "open", "close", "phase", "end")
MASKS = ("access", "format")
INTERVALS = (
    *("sample_bits", "frame_bits", "channels", "rate", "period_time", "period_size", "period_bytes"),
    *("periods", "buffer_time", "buffer_size", "buffer_bytes"),
)
# what each line of `refine` asks of: masks too, and whether a number follows
VERBS = {"set": (True, True), "min": (False, True), "max": (False, True), "near": (False, True), "integer": (False, False), "show": (True, False)}
FORMS = {
    "card": "card KEYS",
    "client": "client NAME FILE KEYS",
    "reader": "reader NAME KEYS",
    "open": "open NAME",
    "close": "close NAME",
    "phase": "phase",
    "end": "end",
    "slave": "slave channels C rate R period P ring N",
    "choose": "choose",
    **{verb: f"{verb} PARAM N" if counts else f"{verb} PARAM" for verb, (_, counts) in VERBS.items()},
}


class Fault(Exception):
    """The first word of a line that can't be where it is: why, its place among the line's words (behind the last where one is missing), what
    must be there, and the words that can be, where these are a list."""

    def __init__(self, why, place, expected, known=()):
        super().__init__(why)
        self.why, self.place, self.expected, self.known = why, place, expected, tuple(known)


def listed(words):
    return ", ".join(f"`{it}`" for it in words)


def spelled(calls):
    """The calls of an actor, each with N, or K of steps, where a number follows."""
    return [f"{it} {'K' if number is STEPS else 'N'}" if number else it for it, number in calls.items()]


class Line:
    """A line of a text: its number, its bytes without the line's end, and its words with their places in these."""

    def __init__(self, number, raw):
        self.number, self.raw = number, raw[:-1] if raw.endswith(b"\r") else raw
        self.before_comment = self.raw.split(b"#")[0]
        found = list(re.finditer(rb"[^ \t]+", self.before_comment))
        self.words = [it.group().decode("latin-1") for it in found]
        self.spans = [it.span() for it in found]

    def span(self, place):
        """The place of a word in the bytes; behind the last word it is the line's end."""
        end = len(self.before_comment.rstrip(b" \t"))
        return self.spans[place] if place < len(self.spans) else (end + 1, end + 2)

    def glued_comment(self):
        """The word in which a comment begins, where it isn't preceded by a blank: what is dropped of it, or None."""
        rest = self.raw[len(self.before_comment) :]
        is_glued = rest and self.before_comment[-1:] not in (b"", b" ", b"\t") and len(rest) > 1 and rest[1:2] not in (b" ", b"\t", b"#")
        return rest if is_glued else None


def lines_of(text):
    """The lines of a text, from number 1 on."""
    parts = text.split(b"\n")
    if parts[-1] == b"":
        parts.pop()
    return [Line(number, raw) for number, raw in enumerate(parts, 1)]


class Draft:
    """What the lines of a script up to some line say, all of which are allowed: the card's words, the names with the kind of actor and the
    line of each, the line of the phase that is open, that of the body's first, the phases, the frames played, and the line of `unplug`."""

    def __init__(self):
        self.card, self.actors, self.phase, self.body, self.phases, self.played, self.gone = None, {}, None, None, 0, 0, None

    def add(self, line):
        words = line.words
        if self.card is None:
            self.card = words
        elif words[0] in ("client", "reader") and self.body is None:
            self.actors[words[1]] = words[0], line.number
        elif words[0] == "phase":
            self.phase, self.phases, self.body = line.number, self.phases + 1, self.body or line.number
        elif words[0] == "end":
            self.phase = None
        elif words[0] in ("open", "close"):
            self.body = self.body or line.number
        else:
            self.act(line)

    def act(self, line):
        if line.words[:2] == ["card", "play"]:
            self.played += int(line.words[2])
        if line.words[:2] == ["card", "unplug"]:
            self.gone = line.number

    def number(self, key, otherwise):
        """A number of the card's line, or of a slave's."""
        words = self.card or []
        return int(dict(zip(words[1::2], words[2::2])).get(key, otherwise))

    def kind(self, name):
        return "card" if name == "card" else self.actors.get(name, (None, 0))[0]


def draft_before(lines, number):
    """The draft of the lines before the one of this number. One that the mirror can't follow ends it."""
    draft = Draft()
    for line in lines[: max(0, number - 1)]:
        if line.words:
            try:
                draft.add(line)
            except (IndexError, ValueError):
                break
    return draft


def need(words, place, expected, known=()):
    """The word at a place, which must be there."""
    if place >= len(words):
        raise Fault("Missing", place, expected, known)
    return words[place]


def take(words, place, what, kind):
    """A word of a kind at a place, after what is named."""
    comes = "come" if isinstance(kind, Channels) else "comes a number," if isinstance(kind, Number) else "comes"
    expected = f"after {what} {comes} {kind}"
    known = kind.words if isinstance(kind, Words) else ()
    why = kind.why(need(words, place, expected, known))
    if why:
        raise Fault(why, place, expected, known)


def end(words, place):
    if place < len(words):
        raise Fault("Extra", place, "the line is whole before this word")


def check_keys(words, place, keys, kind):
    """Keys and their values, up to the line's end."""
    earlier = set()
    while place < len(words):
        key = words[place]
        if key not in keys:
            ranges = "; ".join(f"`{it}` {takes}" for it, takes in keys.items())
            raise Fault("Word", place, f"here a key of a {kind} must be: {ranges}", keys)
        if key in earlier:
            raise Fault("KeyTwice", place, f"the key `{key}` is on this line already")
        take(words, place + 1, f"the key `{key}`", keys[key])
        earlier.add(key)
        place += 2


def check_name(words):
    word = need(words, 1, f"after `{words[0]}` comes a name")
    if not NAME.match(word) or word in KEYWORDS:
        raise Fault("Name", 1, "a name is 1 to 32 lower-case letters, digits and `_`, the first a letter, and none of " + listed(KEYWORDS))


def check_declared(words, draft):
    """A line of the declarations."""
    check_name(words)
    place = 2
    if words[0] == "client":
        take(words, 2, "the client's name", FileName())
        place = 3
    check_keys(words, place, KEYS[words[0]], words[0])


def check_call(words, kind):
    """A line of an actor in a phase."""
    calls = CALLS[kind]
    expected = f"here a call of {'the card' if kind == 'card' else f'a {kind}'} must be: {listed(spelled(calls))}"
    call = need(words, 1, expected, calls)
    if call not in calls:
        raise Fault("Word", 1, expected, calls)
    if calls[call]:
        take(words, 2, f"`{call}`", calls[call])
    end(words, 3 if calls[call] else 2)


def check_outside(words, draft):
    """A line outside phases, after the card's."""
    first, names = words[0], list(draft.actors)
    if first in ("client", "reader") and draft.body is None:
        check_declared(words, draft)
    elif first in ("open", "close"):
        expected = f"after `{first}` comes a declared name" + (f": {listed(names)}" if names else ", and none is declared")
        if need(words, 1, expected, names) not in names:
            raise Fault("Word", 1, expected, names)
        end(words, 2)
    elif first == "phase":
        end(words, 1)
    elif first in KEYWORDS or first in names:
        raise Fault("Order", 0, misplaced(first, draft))
    else:
        known = ("client", "reader", "open", "close", "phase")
        raise Fault("Word", 0, f"a line here begins with {listed(known)}", (*known, *names))


def check_inside(words, draft):
    """A line within a phase."""
    first, names = words[0], list(draft.actors)
    if first == "end":
        end(words, 1)
    elif draft.kind(first):
        check_call(words, draft.kind(first))
    elif first in KEYWORDS:
        raise Fault("Order", 0, misplaced(first, draft))
    else:
        known = ("card", "end", *names)
        raise Fault("Word", 0, f"a line within a phase begins with {listed(known)}", known)


def misplaced(first, draft):
    """Why a line can't begin with a word here."""
    if draft.phase:
        return f"the phase of line {draft.phase} has no `end` above this line"
    if first in ("client", "reader"):
        return f"clients and readers come before the body, which begins on line {draft.body}"
    if first == "card":
        return "the card's line is there already, and calls of the card are within a phase"
    if first == "end":
        return "no phase is open here"
    return f"calls of `{first}` are within a phase: `phase`, its lines, `end`"


def check_script_line(words, draft):
    """A line of a script after these ones; a Fault tells of its first word that can't be there."""
    if draft.card is None:
        if words[0] != "card":
            why = "Order" if words[0] in KEYWORDS else "Word"
            raise Fault(why, 0, "the first line with words begins with `card`", ("card",))
        check_keys(words, 1, CARD_KEYS, "card")
    elif draft.phase:
        check_inside(words, draft)
    else:
        check_outside(words, draft)


def check_slave(words):
    """The first line of a text of `refine`."""
    if words[0] != "slave":
        why = "Order" if words[0] in FORMS and words[0] in (*VERBS, "choose") else "Word"
        raise Fault(why, 0, f"the first line with words is `{FORMS['slave']}`", ("slave",))
    for number, (key, kind) in enumerate(SLAVE_KEYS.items()):
        place = 1 + 2 * number
        expected = f"here `{key}` must be, as the keys have this order"
        if need(words, place, expected, (key,)) != key:
            raise Fault("Word", place, expected, (key,))
        take(words, place + 1, f"`{key}`", kind)
    end(words, 1 + 2 * len(SLAVE_KEYS))


def check_ask(words):
    """A later line of a text of `refine`."""
    verb, begins = words[0], (*VERBS, "choose")
    if verb not in begins:
        raise Fault("Order" if verb == "slave" else "Word", 0, f"a line here begins with {listed(begins)}", begins)
    if verb == "choose":
        return end(words, 1)
    takes_masks, counts = VERBS[verb]
    known = (*MASKS, *INTERVALS) if takes_masks else INTERVALS
    expected = f"after `{verb}` comes one of {listed(known)}" + ("" if takes_masks else "; `access` and `format` have `set` and `show` alone")
    param = need(words, 1, expected, known)
    if param not in known:
        raise Fault("Word", 1, expected, known)
    if counts:
        take(words, 2, f"`{param}`", Number(0, 63 if param in MASKS else 4294967295))
    return end(words, 3 if counts else 2)


def fault_in(lines, number, command):
    """The fault of the line of this number in a script, or a text of `refine`, or None where each word by itself can be there."""
    line, draft = lines[number - 1], draft_before(lines, number)
    try:
        if command != "refine":
            check_script_line(line.words, draft)
        elif any(it.words for it in lines[: number - 1]):
            check_ask(line.words)
        else:
            check_slave(line.words)
    except Fault as fault:
        return fault
    return None
