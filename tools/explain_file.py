"""Why a file can't be read or written, as far as can be told afterwards, and how a WAV file that is refused is made one that isn't."""
import difflib
import errno
import os
import select
import shlex
import shutil
import stat

from script_forms import draft_before, lines_of
from show_text import marked_line, shown, shown_name

ROOM_LEAST = 65536
SCRIPT_MOST = 1 << 20
PAGE = "HTML or XML, as a server sends in place of a file"
OF_PAGE = "what to do: get the sound itself from where this came, as this file has none"
TEXT = "it is a text, which begins with "
OF_TEXT = "what to do: name the WAV file, and give the text where a text belongs"
# how files begin that aren't read, and what they are
BEGINNINGS = (
    (b"RF64", "RF64, a WAV file for more than 4 GiB"),
    (b"BW64", "BW64, a WAV file for more than 4 GiB"),
    (b"RIFX", "RIFX, a WAV file whose numbers have the first byte first"),
    (b"riff", "W64"),
    (b"FORM", "AIFF"),
    (b".snd", "AU"),
    (b"caff", "CAF"),
    (b"fLaC", "FLAC"),
    (b"OggS", "Ogg"),
    (b"ID3", "MP3"),
    (b"\xff\xfb", "MP3"),
    (b"\xff\xf3", "MP3"),
    (b"\xff\xf2", "MP3"),
    (b"<", PAGE),
)
TAGS = {
    2: "ADPCM",
    3: "floating point",
    6: "A-law",
    7: "mu-law",
    17: "ADPCM",
    49: "GSM",
    85: "MP3",
}
PLUG_BITS = (8, 24, 32)
# what is said of these errors beyond their reason
PIPE_SAID = "it is a pipe, which can be read once: if it is named twice, store its bytes in a file first"


def script_text(name):
    """The bytes of a script, where it can be read a second time; else None."""
    try:
        if not stat.S_ISREG(os.stat(name).st_mode):
            return None
        with open(name, "rb") as file:
            return file.read(SCRIPT_MOST)
    except (OSError, ValueError):
        return None


def naming(text, name):
    """The lines of a script that name a file, the card's before the clients'; each with the place of the name among its words."""
    raw, found = os.fsencode(name).decode("latin-1"), []
    for line in lines_of(text or b""):
        words = line.words
        if words[:1] == ["client"] and words[2:3] == [raw]:
            found.append((line, 2))
        if words[:1] == ["card"] and ("capture", raw) in zip(words[1::2], words[2::2]):
            found.append((line, words.index(raw, 2)))
    return found


def shown_lines(script, found):
    """The first of the lines that name a file, as it is shown."""
    if not found:
        return []
    line, place = found[0]
    return [f"{shown_name(script)}, line {line.number}:", *(f"    {it}" for it in marked_line(line.raw, line.span(place)))]


def reason(error):
    return os.strerror(error).lower() if error else ""


def why_unread(name):
    """Why a file can't be read: its errno's reason and what that is about, or that it can be read by now."""
    try:
        mode = os.stat(name).st_mode
    except (OSError, ValueError) as error:
        why = reason(getattr(error, "errno", 0)) or "the name has a zero byte"
        return f"{why}: it is a link to {shown_name(os.readlink(name))}" if os.path.islink(name) else why
    if stat.S_ISDIR(mode):
        return reason(errno.EISDIR)
    if stat.S_ISFIFO(mode) or stat.S_ISSOCK(mode):
        return PIPE_SAID
    if not stat.S_ISREG(mode):
        return "it is a device and no file"
    try:
        with open(name, "rb") as file:
            file.read(1)
    except OSError as error:
        return reason(error.errno)
    return "it can be read by now, so it was made or changed meanwhile: run it again"


def near_file(name):
    """A file in the same folder with a name that is near, also without its ending, or None."""
    try:
        names = os.listdir(os.path.dirname(name) or ".")
    except (OSError, ValueError):
        return None
    root = lambda it: os.path.splitext(it)[0].lower()
    own = os.path.basename(name)
    names = [it for it in names if difflib.SequenceMatcher(None, root(it), root(own)).ratio() >= 0.6]
    found = difflib.get_close_matches(own, names, 1, 0.7)
    return os.path.join(os.path.dirname(name), found[0]) if found else None


def other_place(name, script):
    """Where a file is that isn't there: beside its script, or under a name that is near; or why its name isn't taken as it is meant."""
    beside = os.path.join(os.path.dirname(script or ""), name)
    if script and beside != name and os.path.exists(beside):
        return [f"`{shown_name(beside)}` is there: files are named from the folder in which the program runs, and not from the script's"]
    if name == "-":
        return ["standard input is `/dev/stdin`"]
    if name[:1] in "~$" or "$" in name:
        return ["in a script `~` and `$` are no more than characters: write the whole path"]
    if name[:1] in "\"'":
        return ["a name is written without quotes"]
    like = near_file(name)
    return [f"`{shown_name(like)}` is there"] if like else []


def of_comment(found):
    """The sentence that a comment begins within the name on the first of some lines, where it does."""
    rest = found and found[0][1] == len(found[0][0].words) - 1 and found[0][0].glued_comment()
    return [f"the name ends before `{shown(rest)}`: a comment begins at a `#` also within a word, so no name has one"] if rest else []


def explain_read(name, script):
    """The lines and sentences on a file that can't be read; `script` is the script that may name it, or None."""
    found = naming(script_text(script), name) if script and script != name else []
    said = [f"`{shown_name(name)}`: {why_unread(name)}"]
    # of a pipe it is the second reading that fails
    found = found[1:] if said[0].endswith(PIPE_SAID) and len(found) > 1 else found
    if not os.path.lexists(name):
        said += other_place(name, script if found else None) or ["files are named from the folder in which the program runs"]
    return shown_lines(script, found), said + of_comment(found)


def outputs(words):
    """The files that a call writes, by its words."""
    if words[:1] == ["run"] and len(words) == 3:
        text = script_text(words[1])
        lines = lines_of(text or b"")
        actors = draft_before(lines, len(lines) + 1).actors
        readers = [name for name, (kind, _) in actors.items() if kind == "reader"]
        return [f"{words[2]}.wav", *(f"{words[2]}.{it}.wav" for it in readers)]
    if words[:1] == ["make"] and len(words) == 4 and words[2].isdigit():
        return [*(f"made-{it}.wav" for it in range(min(64, int(words[2])))), "made.script", "made.wav", "made.report"]
    return []


def why_folder(folder):
    """Why no file can be made in a folder, or None."""
    if not os.path.isdir(folder):
        return f"the folder `{shown_name(folder)}` isn't there"
    if os.statvfs(folder).f_flag & os.ST_RDONLY:
        return f"the file system of `{shown_name(folder)}` can only be read"
    if not os.access(folder, os.W_OK | os.X_OK):
        return f"the folder `{shown_name(folder)}` may not be written in"
    return None


def why_full(path):
    """That the disk of a path is full, or None."""
    room = os.statvfs(path)
    left = room.f_bavail * room.f_frsize
    if not room.f_blocks:
        return f"the file system of `{shown_name(path)}` has no room for files"
    if left < ROOM_LEAST:
        return f"the disk is full: {left} bytes are left"
    return "the disk has no room for one more file" if room.f_files and not room.f_favail else None


def why_unwritten(name):
    """Why a file can't be written, or None where nothing is in the way now."""
    try:
        mode = os.stat(name).st_mode
    except OSError as error:
        if error.errno != errno.ENOENT:
            return reason(error.errno)
        folder = os.path.dirname(os.path.realpath(name) if os.path.islink(name) else name) or "."
        return why_folder(folder) or why_full(folder)
    if stat.S_ISDIR(mode):
        return reason(errno.EISDIR)
    if not os.access(name, os.W_OK):
        return reason(errno.EACCES)
    if not stat.S_ISREG(mode):
        return "it is no regular file"
    return why_full(name)


def why_no_output(was_open):
    """Why standard output can't be written, or None."""
    if not was_open:
        return "it is closed"
    try:
        mode = os.fstat(1).st_mode
        if stat.S_ISFIFO(mode) or stat.S_ISSOCK(mode):
            poll = select.poll()
            poll.register(1, 0)
            return "nobody reads it any more" if poll.poll(0) else None
        if os.path.realpath("/proc/self/fd/1") == "/dev/full":
            return reason(errno.ENOSPC)
        return why_full("/proc/self/fd/1") if stat.S_ISREG(mode) else None
    except OSError as error:
        return reason(error.errno)


def explain_write(words, had_output):
    """The sentences on a file or an output that can't be written."""
    names, said = outputs(words), []
    for name in names:
        why = why_unwritten(name)
        if why:
            said.append(f"`{shown_name(name)}`: {why}")
            break
    why = why_no_output(had_output)
    if why:
        said.append(f"standard output: {why}")
    if not said:
        which = " or ".join([*(f"`{shown_name(it)}`" for it in names[:3]), *(["another file of the run"] if names[3:] else []), "standard output"])
        said.append(f"it was {which}; nothing is in its way by now")
    return [], said


def converted(name):
    """The name of a converted file."""
    root, ending = os.path.splitext(name)
    return f"{root}-16.wav" if ending else f"{name}-16.wav"


def command_of(tool, name, *changes):
    """The command that converts a file, for a shell."""
    words = {
        "sox": ["sox", name, *(changes or ("-b", "16", "-e", "signed-integer")), converted(name)],
        "ffmpeg": ["ffmpeg", "-i", name, "-c:a", "pcm_s16le", converted(name)],
    }[tool]
    # a name that begins with a dash isn't an option
    return shlex.join([f"./{it}" if it == name and it.startswith("-") else it for it in words])


def sox_or_ffmpeg():
    return "ffmpeg" if shutil.which("ffmpeg") and not shutil.which("sox") else "sox"


def first_bytes(name):
    """The first bytes of a file, or None where it isn't a regular one that can be read."""
    try:
        if not stat.S_ISREG(os.stat(name).st_mode):
            return None
        with open(name, "rb") as file:
            return file.read(16)
    except (OSError, ValueError):
        return None


def what_it_is(name):
    """What a file is that isn't a WAV file, by its first bytes."""
    first = first_bytes(name)
    if first is None:
        return []
    if not first:
        return ["the file is empty"]
    kind = next((it for begin, it in BEGINNINGS if first.startswith(begin)), None)
    if kind:
        return [f"it begins as {kind}"]
    return [f"{TEXT}`{shown(first.split()[0])}`"] if is_text(first) else [f"its first bytes are {shown(first)}"]


def is_text(raw):
    """Whether bytes are those of a text in ASCII with a word in it."""
    return bool(raw.split()) and all(it in b"\t\n\r" or 32 <= it < 127 for it in raw)


def of_no_riff(name):
    """The sentences and the commands on a file that doesn't begin as a WAV file."""
    said = what_it_is(name)
    if said == [f"it begins as {PAGE}"]:
        return [*said, OF_PAGE], []
    if said and said[0].startswith(TEXT):
        return [*said, OF_TEXT], []
    return said, [] if said == ["the file is empty"] else [command_of("ffmpeg", name)]


def plugged(found, bits):
    """The lines of clients to which `plug linear` is to be added, where that would do."""
    clients = [line for line, place in found if line.words[0] == "client" and "plug" not in line.words[3::2]]
    return clients if bits in PLUG_BITS and len(clients) == len(found) else []


def explain_wav(name, why, number, script):
    """The lines, the sentences and the commands on a WAV file that is refused; `number` is the WHY's, or None."""
    found = naming(script_text(script), name) if script else []
    said, commands = [], []
    if why == "NotRiff":
        said, commands = of_no_riff(name)
    elif why == "Tag":
        said = [f"its samples are {TAGS[number]}"] if number in TAGS else []
        commands = [command_of("ffmpeg" if number == 85 else sox_or_ffmpeg(), name)]
    elif why == "Bits":
        for line in plugged(found, number):
            said.append(f"with `plug linear` on line {line.number} the program converts it")
            commands.append(f"{shown(line.before_comment.strip())} plug linear")
        commands.append(command_of(sox_or_ffmpeg(), name))
    elif why == "Channels" and number:
        commands = [command_of("sox", name, "-c", "2")]
    elif why == "TooLong" and not script_size_fits(name):
        commands = [shlex.join(["sox", name, converted(name), "trim", "0", "60"])]
    if is_stream(name):
        commands = [it for it in commands if it.endswith(" plug linear")]
        said.append("it is a pipe or a device: store its bytes in a file, and convert that one")
    return shown_lines(script, found), said + of_comment(found), commands


def is_stream(name):
    """Whether a name is there and no regular file's."""
    try:
        return not stat.S_ISREG(os.stat(name).st_mode)
    except (OSError, ValueError):
        return False


def script_size_fits(name):
    """Whether a file by itself isn't too long."""
    try:
        return os.stat(name).st_size <= 67_108_864
    except (OSError, ValueError):
        return True
