#!/usr/bin/env python3
"""check_refusals.py: compares the table of refusals, tools/refusals.tsv, with what the program can print and with the manual.

Each WHY that the program's sources name has a row, and no row is of another one; the manual's tables in docs/SCRIPTS.md are made from the table;
and the words, keys and ranges of tools/script_forms.py are the program's own. With --write it makes the manual's tables anew. Status 1 where
one isn't so."""
import os
import re
import sys

ROOT = os.path.dirname(os.path.dirname(os.path.abspath(__file__)))
sys.path.insert(0, f"{ROOT}/tools")
import command
import refusals
import script_forms as forms

MANUAL = "docs/SCRIPTS.md"
# where each group's causes are, and where their names are as they are printed
SOURCES = {
    "script": ("lab_script", "ScriptWhy", "why_name"),
    "conf": ("asound_conf", "ConfWhy", "why_name"),
    "wav": ("wav_io", "WavError", "error_name"),
}
STOPS = "crates/lab_stop/src/stop.rt"
# want of memory ends as a message of its own
NOT_PRINTED = {"Memory"}
# how the table names the number of a cause
LETTERS = ("K", "T", "B", "N")
ANY = 9_999_999_999_999_999_999


def read(root, name):
    try:
        with open(f"{root}/{name}", encoding="utf-8") as file:
            return file.read()
    except FileNotFoundError:
        return ""


def causes_in(source, enum):
    """The causes of an enum in a source, each with whether it has a number."""
    body = re.search(rf"pub enum {enum} \{{(.*?)\n\}}", source, re.S)
    found = re.findall(r"^    (\w+)(\(\w+\))?,", body[1] if body else "", re.M)
    return {name: bool(number) for name, number in found if name not in NOT_PRINTED}


def printed_in(text, function):
    """The names by which the causes are printed, as the specification has them."""
    found = re.findall(rf'^{function} \(?\w+[^=]*= codes "(\w+)"', text, re.M)
    return set(found) - NOT_PRINTED


def check_causes(root, rows):
    """Whether the causes of each group are the rows of it."""
    for group, (crate, enum, function) in SOURCES.items():
        causes = causes_in(read(root, f"crates/{crate}/src/error.rt"), enum)
        printed = printed_in(read(root, f"crates/{crate}/specs/ErrorText.antt"), function)
        own = {it.word: it.why.split()[1:] for it in rows if it.group == group}
        if not causes or set(causes) != printed:
            yield f"crates/{crate}: the causes of {enum} and the names that ErrorText prints aren't the same, or aren't found"
        yield from (f"{group}: {it} has no row in the table" for it in sorted(set(causes) - set(own)))
        yield from (f"{group}: {it} is in the table, and no cause of {enum}" for it in sorted(set(own) - set(causes)))
        for name in sorted(set(causes) & set(own)):
            if causes[name] != (len(own[name]) == 1 and own[name][0] in LETTERS):
                yield f"{group}: {name} has {'a' if causes[name] else 'no'} number, and in the table it is otherwise"


def check_messages(root, rows):
    """Whether the messages without a WHY are the rows of theirs."""
    printed = set(re.findall(r'"dmixlab: (\w+)', read(root, STOPS))) - {"script", "conf", "wav"}
    own = {it.word for it in rows if it.group == "message"}
    if printed != own:
        yield f"message: {STOPS} puts {sorted(printed)}, and the table has {sorted(own)}"


def check_manual(root, rows):
    """Whether the manual's tables are those of the rows."""
    text = read(root, MANUAL)
    found = refusals.groups_in(text)
    if sorted(found) != sorted(refusals.GROUPS):
        yield f"{MANUAL} has the tables {found} between its marks, and not {list(refusals.GROUPS)}"
    if refusals.manual_with_tables(text, rows) != text:
        yield f"{MANUAL}: a table of refusals isn't the one of the table: maintenance/check_refusals.py --write"


def number_of(text):
    return int(text.replace("_", ""))


def table_in(source, name):
    """The rows of a table of words in a source: each word, and what is beside it."""
    body = re.search(rf"const {name}: [^=]*= \[(.*?)\n\];", source, re.S)
    return re.findall(r'\(b"(\w+)", (.*)\),$', body[1] if body else "", re.M)


def keys_in(source, name):
    """The keys of a table, each with what it takes in one form for both sides."""
    keys = {}
    for key, takes in table_in(source, name):
        found = re.fullmatch(r"Takes::(\w+)(?:\((\w+), (\w+)\))?", takes)
        if not found:
            continue
        most = found[3] and (ANY if found[3] == "ANY" else number_of(found[3]))
        keys[key] = (found[1], number_of(found[2]), most) if found[2] else (found[1],)
    return keys


def key_form(kind):
    """What a key takes, in the form of keys_in."""
    if isinstance(kind, forms.Number):
        most = kind.most if isinstance(kind.most, int) else ANY
        return ("NumberOrNever" if kind.never else "Number", kind.least, most)
    if isinstance(kind, forms.Words):
        return ("Plug",) if kind.words == ("linear",) else ("Share",)
    return ("File",) if isinstance(kind, forms.FileName) else ("Bindings",)


def calls_in(source, name):
    """The calls of a table, each with its greatest number or None."""
    limits = {it: number_of(number) for it, number in re.findall(r"const (\w+): u32 = ([0-9_]+);", source)}
    calls = {}
    for call, form in table_in(source, name):
        found = re.search(r"Form::Counted\(.*, (\w+)\)", form)
        calls[call] = limits.get(found[1]) if found else None
    return calls


def check_forms(root):
    """Whether the words, keys and ranges of scripts are the program's own."""
    keys, ops = read(root, "crates/lab_script/src/keys.rt"), read(root, "crates/lab_script/src/ops.rt")
    for kind, own in forms.KEYS.items():
        if keys_in(keys, f"{kind.upper()}_KEYS") != {key: key_form(it) for key, it in own.items()}:
            yield f"crates/lab_script/src/keys.rt: the keys of a {kind} aren't those of tools/script_forms.py"
    for kind, own in forms.CALLS.items():
        if calls_in(ops, f"{kind.upper()}_OPS") != {call: it and it.most for call, it in own.items()}:
            yield f"crates/lab_script/src/ops.rt: the calls of a {kind} aren't those of tools/script_forms.py"
    keywords = [it for it, _ in table_in(read(root, "crates/lab_script/src/keyword.rt"), "KEYWORDS")]
    if keywords != list(forms.KEYWORDS):
        yield "crates/lab_script/src/keyword.rt: the words of the language aren't those of tools/script_forms.py"
    params = re.findall(r'Param::\w+ => "(\w+)"', read(root, "crates/lab_refine/src/params.rt"))
    if sorted(params) != sorted((*forms.MASKS, *forms.INTERVALS)):
        yield "crates/lab_refine/src/params.rt: the parameters aren't those of tools/script_forms.py"
    verbs = re.findall(r'word == b"(\w+)"\.as_slice\(\) \{\n        Some\(Verb', read(root, "crates/lab_refine/src/grammar.rt"))
    if sorted(verbs) != sorted((*forms.VERBS, "choose")):
        yield "crates/lab_refine/src/grammar.rt: the words that ask aren't those of tools/script_forms.py"


def check(root, writes=False):
    """What is wrong, a line for each fault."""
    try:
        rows = refusals.read_table(f"{root}/tools/refusals.tsv")
    except (OSError, ValueError) as error:
        return [str(error)]
    if writes:
        command.store(f"{root}/{MANUAL}", refusals.manual_with_tables(read(root, MANUAL), rows).encode())
    twice = {(it.group, it.word) for it in rows if sum((it.group, it.word) == (other.group, other.word) for other in rows) > 1}
    faults = [f"{group}: {word} has two rows" for group, word in sorted(twice)]
    return faults + [fault for it in (check_causes, check_messages, check_manual) for fault in it(root, rows)] + list(check_forms(root))


def main():
    words = command.Words(__doc__)
    words.add_argument("--write", action="store_true", help="makes the manual's tables anew")
    faults = check(ROOT, words.parse_args().write)
    print("\n".join(faults) or f"{len(refusals.read_table())} refusals are those that the program prints, and those of the manual")
    return 1 if faults else 0


if __name__ == "__main__":
    command.run(main)
