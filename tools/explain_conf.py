"""What a refusal of a configuration, or of a device in it, means: the line, the device's type, and which device can be asked for in its place."""
import difflib
import re

from explain_script import fitting_sizes
from show_text import marked_line, shown

TOKEN = re.compile(rb"#[^\n]*|\"[^\"\n]*\"|'[^'\n]*'|[{}\[\]=,;]|[^\s{}\[\]=,;\"'#]+")
KINDS = ("dmix", "dsnoop", "dshare")
# the fields of a slave, their least and most, where one by itself decides
RANGES = {"channels": (1, 8), "rate": (4000, 192000), "period_size": (16, 8192), "buffer_size": (64, 16384)}
FIELDS = ("format", "channels", "rate", "period_size", "period_time", "buffer_size", "periods", "buffer_time")
CAN_ASK = "these devices of the file can be asked for: "
# where in a line the cause of a WHY is
CAUSES = {
    "Byte": re.compile(rb"[^\x09\x20-\x7e]+"),
    "Escape": re.compile(rb"\\."),
    "Include": re.compile(rb"<[^\s>]*>?"),
    "Function": re.compile(rb"@[^\s{}\[\]=,;.]*"),
    "Prefix": re.compile(rb"[+?-][^\s{}\[\]=,;.]*"),
}


def texts_of(raw):
    """The tokens of a configuration: each with its text, and whether it is in quotes."""
    for found in TOKEN.finditer(raw):
        token = found.group()
        if token[:1] == b"#":
            continue
        is_quoted = token[:1] in (b'"', b"'")
        yield (token[1:-1] if is_quoted else token).decode("latin-1"), is_quoted


class Reader:
    """Reads a configuration without a defect into groups, which are dictionaries, and texts. Of one with a defect it reads what it can."""

    def __init__(self, raw):
        self.tokens = list(texts_of(raw))
        self.at = 0

    def next_mark(self, *marks):
        """Takes the next token where it is one of some marks."""
        if self.at < len(self.tokens) and self.tokens[self.at] in [(it, False) for it in marks]:
            self.at += 1
            return self.tokens[self.at - 1][0]
        return None

    def put(self, group, key, is_quoted, value):
        """Puts a value down the parts of a key."""
        parts = [key] if is_quoted else key.split(".")
        for number, part in enumerate(parts):
            name = part if is_quoted else part.lstrip("!")
            if part.startswith("!") and not is_quoted:
                group.pop(name, None)
            if number + 1 < len(parts):
                inner = group.setdefault(name, {})
                group = inner if isinstance(inner, dict) else group.__setitem__(name, {}) or group[name]
            elif isinstance(value, dict) and isinstance(group.get(name), dict):
                group[name].update(value)
            else:
                group[name] = value

    def value(self):
        if self.next_mark("{"):
            return self.group("}")
        if self.next_mark("["):
            return self.array()
        if self.at >= len(self.tokens):
            return ""
        self.at += 1
        return self.tokens[self.at - 1][0]

    def array(self):
        group = {}
        while self.at < len(self.tokens) and not self.next_mark("]"):
            if not self.next_mark(",", ";"):
                group[str(len(group))] = self.value()
        return group

    def group(self, close=None):
        group = {}
        while self.at < len(self.tokens) and not (close and self.next_mark(close)):
            if self.next_mark(",", ";", "=", "}", "]"):
                continue
            key, is_quoted = self.tokens[self.at]
            self.at += 1
            self.next_mark("=")
            self.put(group, key, is_quoted, self.value())
        return group


def group_at(node, *names):
    """The group under some names, or an empty one."""
    for name in names:
        node = node.get(name) if isinstance(node, dict) else None
    return node if isinstance(node, dict) else {}


def slave_of(root, device):
    """The slave of a device: its group, the one that it names, or an empty one."""
    slave = device.get("slave")
    return slave if isinstance(slave, dict) else group_at(root, "pcm_slave", slave) if slave else {}


def askable(root):
    """The names of the devices that can be asked for."""
    devices = group_at(root, "pcm")
    return [name for name, it in devices.items() if isinstance(it, dict) and it.get("type") in KINDS and slave_of(root, it)]


def below(root, name):
    """The names of devices that a device stands over, by its slave or as an alias, from it on; each once."""
    devices, seen, left = group_at(root, "pcm"), [], [name]
    while left:
        name = left.pop(0)
        if not isinstance(name, str) or name in seen:
            continue
        seen.append(name)
        device = devices.get(name)
        if isinstance(device, str):
            left.append(re.sub(r"^pcm\.", "", device))
        elif isinstance(device, dict):
            pcms = [slave_of(root, device).get("pcm"), *(group_at(device, it).get("pcm") for it in ("playback", "capture"))]
            left += [it if isinstance(it, str) else None for it in (*pcms, device.get("slave.pcm"))]
    return seen[1:]


def listed(names):
    return ", ".join(f"`{shown(it.encode('latin-1'))}`" for it in names)


def in_place_of(root, name):
    """The sentence that names a device to be asked for in place of this one."""
    names = askable(root)
    lower = [it for it in below(root, name) if it in names]
    if lower:
        kind = group_at(root, "pcm", lower[0])["type"]
        more = ", and put `share dshare` behind the card's line that it prints" if kind == "dshare" else ""
        return [f"it stands over {listed(lower[:1])}, a {kind} device: ask for that name{more}"]
    near = difflib.get_close_matches(name, names, 1, 0.6)
    if near:
        return [f"the nearest that can be asked for is {listed(near)}"]
    return [CAN_ASK + listed(names)] if names else ["no device of the file is a dmix, dsnoop or dshare with a slave and a name"]


def of_missing(root, name):
    """Why a device isn't there."""
    devices, bare = group_at(root, "pcm"), re.sub(r"^!?(pcm\.)?!?", "", name)
    device = devices.get(name)
    if name not in devices and bare in devices and bare != name:
        return [f"a name is what follows `pcm.`, without `!`: `{bare}`"]
    if isinstance(device, str):
        return [f"`pcm.{name}` is an alias of {listed([device])}", *in_place_of(root, name)]
    if device is None:
        return [f"there is no `pcm.{name}` in the file", *in_place_of(root, name)]
    slave = device.get("slave")
    if isinstance(slave, str) and not slave_of(root, device):
        lost = listed([f"pcm_slave.{slave}"])
        return [f"its slave is {lost}, which isn't in the file", f"what to do: copy {lost} into it, or give the device a group `slave {{ .. }}`"]
    return [f"it is of the type {listed([str(device.get('type', 'none'))])} and has no slave", *in_place_of(root, name)]


def of_type(root, name):
    """What the type of a device is, and what to ask for."""
    device = group_at(root, "pcm", name)
    kind = device.get("type")
    said = [f"its type is {listed([kind])}" if isinstance(kind, str) else "it has no type"]
    inner = group_at(slave_of(root, device), "pcm")
    if inner.get("type") in KINDS:
        said.append(f"a {inner['type']} device stands within its `slave.pcm`, without a name")
        said.append("put that group into the file as `pcm.inner` and ask for `inner`")
        return said + (["put `share dshare` behind the card's line that it prints"] if inner["type"] == "dshare" else [])
    return said + in_place_of(root, name)


def of_slave(root, name, why):
    """The fields of a device's slave, and those that are wrong by themselves."""
    slave = slave_of(root, group_at(root, "pcm", name))
    given = {it: slave[it] for it in FIELDS if isinstance(slave.get(it), str)}
    said = ["its slave has " + ", ".join(f"`{it} {shown(text.encode('latin-1'))}`" for it, text in given.items())] if given else []
    for field, text in given.items():
        least, most = RANGES.get(field, (0, 4294967295))
        if why == "Number" and field != "format" and not re.fullmatch("[0-9]{1,10}", text):
            said.append(f"`{field}` is no number")
        if why == "Range" and text.isdigit() and text.strip("0") and not least <= int(text) <= most:
            said.append(f"`{field}` is {least} to {most}")
    return said


def sizes_of(slave):
    """The frames of a slave's period and of its ring, as the manual's table of its fields has them. A field that is 0 isn't given."""
    given = {it: int(slave[it]) for it in FIELDS if re.fullmatch("[0-9]{1,10}", str(slave.get(it))) and int(slave[it])}
    frames = lambda time: given[time] * given.get("rate", 48000) // 1000000 if time in given else 0
    period = given.get("period_size") or frames("period_time") or 1024
    return period, given.get("buffer_size") or given.get("periods", 0) * period or frames("buffer_time") or 8 * period


def of_fit(root, name):
    """The period and the ring that don't fit, and the nearest that do."""
    period, ring = sizes_of(slave_of(root, group_at(root, "pcm", name)))
    return [f"so its period has {period} frames and its ring {ring}", *fitting_sizes(period, ring)]


def of_bindings(root, name, why):
    """What is wrong with a device's bindings."""
    device = group_at(root, "pcm", name)
    bindings = device.get("bindings")
    if why == "BindingKey":
        keys = list(bindings) if isinstance(bindings, dict) else []
        missing = next((it for it in range(len(keys)) if str(it) not in keys), None)
        return [f"the keys are {listed(keys)}, so key {missing} is missing"] if missing is not None else []
    if why == "BindingRange":
        given = slave_of(root, device).get("channels")
        channels = int(given) if re.fullmatch("[0-9]{1,10}", str(given)) and int(given) else 2
        how = f"`channels {channels}`" if given else "no `channels`, which is 2"
        return [f"its slave has {how}, so it has the channels 0 to {channels - 1}" if channels > 1 else f"its slave has {how}, the channel 0"]
    return []


def of_device(raw, name, why):
    """The sentences on a device that is refused."""
    try:
        root = Reader(raw).group()
        if why == "Missing":
            return of_missing(root, name)
        if why == "PluginType":
            return of_type(root, name)
        if why in ("Format", "Number", "Range", "Fit"):
            return of_slave(root, name, why) + (of_fit(root, name) if why == "Fit" else [])
        if why in ("BindingKey", "BindingRange"):
            return of_bindings(root, name, why)
    except RecursionError:
        pass
    return []


def span_of(raw, why):
    """Where the cause of a WHY is in a line, where that can be told."""
    found = why in CAUSES and CAUSES[why].search(raw.split(b"#")[0] if why != "Byte" else raw)
    return found.span() if found else None


def explain_conf(file, text, number, why, name):
    """The lines that show a refused line, and the sentences on it. The text is None where it can't be read again; `why` is the WHY's word."""
    if text is None:
        return [], []
    if number == 0:
        return [], of_device(text, name, why) if why != "TooLong" else [f"its first bytes are {shown(text[:24])}"]
    lines = text.split(b"\n")
    if number > len(lines):
        return [], ["the file has no such line by now"]
    raw = lines[number - 1].rstrip(b"\r")
    return [f"{file}, line {number}:", *(f"    {it}" for it in marked_line(raw, span_of(raw, why)))], []
