#!/usr/bin/env python3
"""Checks that each clause which docs/CLAIMS.md names is at the call that it names, and that each public call which changes a value
is named there.

    check_claims.py             checks each item of each crate's list, and the calls of each crate
    check_claims.py CRATE..     of these crates alone

An item is `- CALLS; CLAUSES: what they say`. A call is a function of the crate's src, and its clause one of its lines
`ensures NAME { .. }`; `-` is a clause without a name. Where a clause is a record of specs, `NAME.FIELD` is a field of it, and `FIELD` one
of a clause without a name; `FIELD.PART` is a field of the record that this field is. A clause is the record at the head of its
conclusion, by itself or by an abbreviation: what follows its last arrow, so not a premise, and not an argument. A `law` is a `pub NAME :`
of the crate's specs, and a `rule` a type of its src.
Each call has to have one of the item's clauses, and each clause to be at one of its calls; and where one of the clauses is at all of the
calls, each other one is too, so that an item is either of what all its calls say, or of what each says by itself. What a clause says
isn't checked here: its words are in the source. Each crate of crates.txt has to be named, too.

A public call is a `pub fn`, by itself or of a type, that the crate's lib.rt hands on. Where it takes a value by `&mut` and has a
clause, a line of its crate has to name it. Crates without a list are left out, as those of tests are. The status is
0 where all is as it should be, 1 where it isn't, and 2 where crates.txt doesn't have a crate that is named.
"""
from __future__ import annotations

import functools
import glob
import os
import re
import sys
import typing

ROOT = os.path.dirname(os.path.dirname(os.path.abspath(__file__)))
sys.path.insert(0, f"{ROOT}/tools")

import command

OWNER = re.compile(r"^(?:pub )?(?:impl|trait)\b")
FUNCTION = re.compile(r'^(\s*)(?:pub(?:\([^)]*\))? )?(?:const )?(?:extern "C" )?fn (\w+)')
CONTRACT = re.compile(r"^\s*(?:requires|ensures)\*? ")
CLAUSE = re.compile(r"^\s*ensures\*?(?: (\w+))? \{")
RECORD = re.compile(r"^pub record (\w+)\b((?:.|\n[ \t])*?)\bwhere\n((?:[ \t].*\n|\n)*)", re.M)
FIELD = re.compile(r"^ +pub (\w+) : (.*(?:\n(?! +pub | *--|\n).*)*)", re.M)
ABBREVIATION = re.compile(r"^abbrev pub (\w+) :.*\n(?:[ \t].*\n)*\1\b[^=]*=(.*\n(?:[ \t].*\n)*)(?![ \t]|\1\b)", re.M)
DEFINED = re.compile(r"^(?:abbrev pub|pub record) (\w+)", re.M)
USE = re.compile(r"^\s*(?:ghost |pub )?use Rattle\.(\w+)\.specs\.(\S+?)\.\{([^}]*)\}", re.M)
# what joins two terms, as `×` and `≡`
SIGN = re.compile(r"[^\w(\[{⊥]+")
PUBLIC = re.compile(r"^\s*pub (?:const )?fn ")
# what a static library exports, from whichever file
FOR_C = re.compile(r'^pub extern "C" fn ')
CHANGED = re.compile(r"&(?:'\w+ )?mut ")
EXPORT = re.compile(r"^pub use [\w:]+::(\{[^}]*\}|\w+);", re.M)


def text_of(path):
    """The text of a file."""
    with open(path, encoding="utf-8") as file:
        return file.read()


def owner_of(head):
    """The type or trait whose items follow the head of an `impl` or a `trait`."""
    words = OWNER.sub("", head).strip()
    depth = 0
    for place, letter in enumerate(words):
        depth += (letter == "<") - (letter == ">")
        if depth == 0:
            words = words[place + 1:] if letter == ">" and words[0] == "<" else words
            break
    words = words.split(" for ")[-1].strip()
    return re.match(r"\w+", words).group(0)


def texts_of(lines, first, indent):
    """The name and the text of each clause of a function whose head begins at a line; the name is "-" for one without a name."""
    texts, has_clauses, is_ensured = [], False, False
    for line in lines[first:]:
        if CONTRACT.match(line):
            has_clauses = True
            clause = CLAUSE.match(line)
            is_ensured = bool(clause)
            texts += [[clause.group(1) or "-"]] if clause else []
        elif re.match(rf"^{indent}[{{}}]", line) or (line.endswith("{") and not has_clauses):
            break
        elif line is not lines[first] and FUNCTION.match(line):
            break
        if is_ensured:
            texts[-1].append(line.split("//")[0])
    return [(name, " ".join(parts)) for name, *parts in texts]


def clauses_of(lines, first, indent):
    """The names of the clauses of a function whose head begins at a line, "-" for one without a name."""
    return [name for name, _ in texts_of(lines, first, indent)]


def parts_of(text):
    """The parts of a text that stand side by side: words, signs, and brackets with what is in them."""
    parts, depth = [""], 0
    for letter in text:
        depth += (letter in "([{") - (letter in ")]}")
        parts += [""] if letter.isspace() and depth == 0 else []
        parts[-1] += letter
    return [part.strip() for part in parts if part.strip()]


def conclusion_of(text):
    """The word at the head of a text's conclusion, which is what follows the last arrow, and its arguments: "" where that is no word,
    or where a sign, as `×`, joins it with another."""
    parts = parts_of(text)
    word, *arguments = parts[len(parts) - parts[::-1].index("→"):] if "→" in parts else parts or [""]
    if word.startswith("(") and not arguments:
        return conclusion_of(word[1:-1])
    is_joined = any(SIGN.fullmatch(part) for part in arguments)
    return ("", []) if is_joined else (word, [part for part in arguments if not part.startswith("{")])


class Record(typing.NamedTuple):
    """A record of specs: its explicit parameters, the type of each field, and the full name of each word of its file."""
    parameters: list
    fields: dict
    names: dict


class Abbreviation(typing.NamedTuple):
    """An abbreviation of specs: its body, and the full name of each word of its file."""
    body: str
    names: dict


def imports_of(text):
    """The full name, with crate and module, of each word that a file imports."""
    listed = [(f"{crate}.{module}", it.strip().split(" as ")) for crate, module, items in USE.findall(text) for it in items.split(",")]
    return {words[-1].strip(): f"{module}.{words[0].strip()}" for module, words in listed}


def parameters_of(head):
    """The explicit parameters in the head of a record, as `(s t : Ring)`."""
    before = parts_of(head)
    groups = [part[1:-1].split(" :")[0] for part in before[:before.index(":")] if part.startswith("(")]
    return [name for group in groups for name in group.split()]


def definitions_of(module, text):
    """The records and the abbreviations of a module, by their full names; an abbreviation of several cases is left out."""
    names = imports_of(text)
    names.update({name: f"{module}.{name}" for name in DEFINED.findall(text)})
    found = {f"{module}.{name}": Abbreviation(body, names) for name, body in ABBREVIATION.findall(text)}
    for name, head, body in RECORD.findall(text):
        found[f"{module}.{name}"] = Record(parameters_of(head), dict(FIELD.findall(body)), names)
    return found


@functools.lru_cache(maxsize=None)
def all_definitions():
    """The records and the abbreviations of all crates' specs."""
    found = {}
    for path in glob.glob(f"{ROOT}/crates/*/specs/**/*.antt", recursive=True):
        crate, _, *folders = os.path.relpath(path, f"{ROOT}/crates")[:-len(".antt")].split("/")
        found.update(definitions_of(".".join([crate, *folders]), text_of(path)))
    return found


def record_of(text, names, definitions):
    """The record in which a text concludes, itself or by abbreviations, with its arguments and the names of their words; or None."""
    word, arguments = conclusion_of(text)
    found = definitions.get(names.get(word))
    if isinstance(found, Abbreviation):
        return record_of(found.body, found.names, definitions)
    return (found, arguments, names) if found else None


def fields_of(text, names, definitions):
    """The fields of the record in which a text concludes; after each, as `FIELD.PART`, those of the record in which the field's type
    does, or the argument that is given for this type."""
    record, arguments, around = record_of(text, names, definitions) or (Record([], {}, {}), [], {})
    given, fields = dict(zip(record.parameters, arguments)), []
    for field, kind in record.fields.items():
        word = conclusion_of(kind)[0]
        inner = record_of(given[word], around, definitions) if word in given else record_of(kind, record.names, definitions)
        fields += [field] + [f"{field}.{part}" for part in (inner[0].fields if inner else [])]
    return fields


def with_fields(clauses, names, definitions):
    """The names of clauses, given with their texts, each followed by the fields of the record that it is."""
    listed = []
    for name, text in clauses:
        body = next(part for part in parts_of(text) if part.startswith("{"))[1:-1]
        listed += [name] + [field if name == "-" else f"{name}.{field}" for field in fields_of(body, names, definitions)]
    return listed


def functions_of(lines):
    """Each function of a file: its owner, or None, its name, and the number and indentation of its head's line."""
    owner = None
    for number, line in enumerate(lines):
        if OWNER.match(line):
            owner = owner_of(line)
        if line.startswith("}"):
            owner = None
        function = FUNCTION.match(line)
        if function:
            yield owner if function.group(1) else None, function.group(2), number, function.group(1)


def head_of(lines, first):
    """The text of a function's head, without its clauses and its body."""
    head = []
    for line in lines[first:]:
        if CONTRACT.match(line) or line.strip() == "{":
            break
        head.append(line.strip())
        if line.endswith("{"):
            break
    return " ".join(head)


def changing_calls(lines, exports):
    """The public calls of a file with a clause that take a value by `&mut`."""
    for owner, name, number, indent in functions_of(lines):
        takes = head_of(lines, number).split("->")[0]
        is_public = FOR_C.match(lines[number]) or PUBLIC.match(lines[number]) and (owner or name) in exports
        if is_public and CHANGED.search(takes) and clauses_of(lines, number, indent):
            yield f"{owner}::{name}" if owner else name


def exports_of(text):
    """The names that a crate's root file hands on."""
    return {name for listed in EXPORT.findall(text) for name in re.findall(r"\w+", listed)}


def unlisted_of(crate, listed):
    """The public calls of a crate that change a value, and that no line names."""
    source = f"{ROOT}/crates/{crate}/src"
    if not os.path.exists(f"{source}/lib.rt"):
        return []
    exports = exports_of(text_of(f"{source}/lib.rt"))
    paths = sorted(glob.glob(f"{source}/**/*.rt", recursive=True))
    return [call for path in paths for call in changing_calls(text_of(path).split("\n"), exports) if call not in listed]


def calls_of(crate):
    """The clauses of each call of a crate and their fields, by the call's name as CLAIMS.md writes it."""
    calls = {}
    for path in sorted(glob.glob(f"{ROOT}/crates/{crate}/src/**/*.rt", recursive=True)):
        lines, names = text_of(path).split("\n"), imports_of(text_of(path))
        for owner, name, number, indent in functions_of(lines):
            call = f"{owner}::{name}" if owner else name
            calls.setdefault(call, []).extend(with_fields(texts_of(lines, number, indent), names, all_definitions()))
    return calls


def texts_under(crate, folder, ending):
    """The texts of a crate's files of one ending."""
    return [text_of(path) for path in glob.glob(f"{ROOT}/crates/{crate}/{folder}/**/*{ending}", recursive=True)]


def is_law(crate, name):
    """Whether a crate's specs state this law."""
    statement = re.compile(rf"^\s*(?:abbrev )?pub {re.escape(name)} :", re.M)
    return any(statement.search(text) for text in texts_under(crate, "specs", ".antt"))


def is_rule(crate, name):
    """Whether this is a type of a crate that implements something."""
    return any(re.search(rf"^impl .* for {name} ", text, re.M) for text in texts_under(crate, "src", ".rt"))


def names_in(list_text):
    """The names of a list: each in backquotes, where `Ring::{put, take}` stands for `Ring::put` and `Ring::take`; `law` and `rule`
    stand for themselves."""
    names = re.findall(r"`([^`]+)`", list_text) or [list_text.strip()]
    parts = (re.fullmatch(r"(.*)\{(.*)\}", name) for name in names)
    lists = ([part.group(1) + it.strip() for it in part.group(2).split(",")] if part else [name] for name, part in zip(names, parts))
    return [name for listed in lists for name in listed]


def rows_of(text):
    """The crate, the calls and the clauses of each item of CLAIMS.md: an item of a list in a crate's section, which goes on in
    indented lines."""
    crate = None
    for line in re.sub(r"\n +", " ", text).split("\n"):
        heading = re.match(r"^## `(\w+)`", line)
        if line.startswith("## "):
            crate = heading.group(1) if heading else None
        item = re.match(r"^- (.*?); (.*?): ", line)
        if crate and item:
            yield crate, names_in(item.group(1)), names_in(item.group(2))


def crates_of(text):
    """The crates of crates.txt."""
    return [line.split(":")[0].split()[0] for line in text.split("\n") if ":" in line and not line.startswith("#")]


def crates_asked_for(doc):
    """The crates that a check was given, all of which crates.txt has."""
    words = command.Words(doc)
    words.add_argument("crates", nargs="*", metavar="CRATE", help="the crates that are checked; none: all")
    asked, known = words.parse_args().crates, crates_of(text_of(f"{ROOT}/crates.txt"))
    for it in asked:
        command.check_known(it, known, "crate of crates.txt")
    return asked


def is_there(crate, call, clause, calls):
    """Whether the crate has this clause at this call."""
    if call == "law":
        return is_law(crate, clause)
    if call == "rule":
        return is_rule(crate, clause)
    return clause in calls.get(call, [])


def half_common(named, clauses, pairs):
    """What an item says of all its calls and only some of them have, where another of its clauses is at all of them."""
    without = {clause: [call for call in named if (call, clause) not in pairs] for clause in clauses}
    if all(without.values()):
        return []
    return [f"{call}: {clause}, which others of its line have" for clause in clauses for call in without[clause]]


def faults_of(crate, named, clauses, calls):
    """What isn't there of one item, a clause that none of its calls has or a call that has none of its clauses; and how many are."""
    pairs = {(call, clause) for call in named for clause in clauses if is_there(crate, call, clause, calls)}
    lost = [f"{', '.join(named)}: {it}" for it in clauses if not any(clause == it for _, clause in pairs)]
    lost += [f"{it}: {', '.join(clauses)}" for it in named if not any(call == it for call, _ in pairs)]
    return lost or half_common(named, clauses, pairs), len(pairs)


def main():
    """Checks the items, and prints what isn't there of them, and the calls that have no line."""
    wanted = crates_asked_for(__doc__)
    text = text_of(f"{ROOT}/docs/CLAIMS.md")
    calls, listed, count, missing = {}, {}, 0, []
    for crate, named, clauses in rows_of(text):
        if wanted and crate not in wanted:
            continue
        if crate not in calls:
            calls[crate] = calls_of(crate)
        listed.setdefault(crate, set()).update(named)
        lost, there = faults_of(crate, named, clauses, calls[crate])
        missing += [f"{crate}: {it}" for it in lost]
        count += there
    unnamed = [crate for crate in crates_of(text_of(f"{ROOT}/crates.txt")) if f"`{crate}`" not in text]
    unlisted = [f"{crate}: {call}" for crate in listed for call in unlisted_of(crate, listed[crate])]
    for line in missing:
        print(f"not there: {line}")
    for line in unlisted:
        print(f"no line: {line}")
    for crate in unnamed:
        print(f"not named: {crate}")
    print(f"{count} clauses, {len(missing)} of them not there; {len(unlisted)} calls without a line")
    return 1 if missing or unlisted or unnamed or not count else 0


if __name__ == "__main__":
    command.run(main)
