#!/usr/bin/env python3
"""check_header.py: compares include/dmixlab.h with the static library of crates/dmix_c, by its sources.

- Each function that the crate exports is declared with the same parameters and result, and the header declares no other.
- Each struct that such a function passes has the same fields, in the same order and of the same types.
- Each declared function is called by one that the header defines, which is what a program calls.
- The header's version is that of docs/version.txt.

    check_header.py                     compares the sources
    check_header.py --archive FILE      also the functions that a built archive defines, and what it asks to be linked with it
    check_header.py --layout            prints C that compiles only where the structs have the sizes and offsets of the library's

A slice is a pointer and a length in C, and an allocator nothing. Sizes and offsets are worked out from the sources, by the rule that a
field is aligned to its own bytes, and not asked of the compiler that made the archive. The status is 0 where both are the same, 1 where
they aren't, and 2 where the archive can't be read."""
import os
import re
import subprocess
import sys

ROOT = os.path.dirname(os.path.dirname(os.path.abspath(__file__)))
sys.path.insert(0, f"{ROOT}/tools")

import command
from crate_graph import files_in

HEADER, CRATE, VERSION = "include/dmixlab.h", "crates/dmix_c", "docs/version.txt"
# Rattle's numbers in C, with their bytes, which are also their alignment
NUMBERS = {
    "u8": ("uint8_t", 1), "u16": ("uint16_t", 2), "u32": ("uint32_t", 4), "u64": ("uint64_t", 8), "usize": ("size_t", 8),
    "i8": ("int8_t", 1), "i16": ("int16_t", 2), "i32": ("int32_t", 4), "i64": ("int64_t", 8), "bool": ("bool", 1),
}
POINTER = ("void *", 8)
# what a program links beside the archive: the C library's, and c/heap.c's
FROM_OUTSIDE = {"memcpy", "memmove", "memset", "memcmp", "rattle_alloc", "rattle_realloc", "rattle_dealloc"}

EXPORT = re.compile(r'#\[unsafe\(no_mangle\)\]\s*pub extern "C" fn (\w+)\(([^)]*)\)\s*->\s*(\w+)')
STRUCT = re.compile(r"#\[repr\(C\)\]\s*(?:#\[derive\([^)]*\)\]\s*)?pub struct (\w+) \{([^{}]*(?:\{[^{}]*\}[^{}]*)*)\}")
DECLARED = re.compile(r"^(\w+) (dmix_c_\w+)\(([^)]*)\);", re.M)
DEFINED = re.compile(r"^static inline .*?^\}", re.M | re.S)
C_STRUCT = re.compile(r"typedef struct \w+ \{(.*?)\} (\w+);", re.S)
DEFINED_VERSION = re.compile(r'^#define DMIXLAB_VERSION "(.*)"$', re.M)


def read(path):
    try:
        with open(path, encoding="utf-8") as file:
            return file.read()
    except FileNotFoundError:
        return ""


def without_comments(text):
    """C or Rattle without its comments."""
    return re.sub(r"//[^\n]*", "", re.sub(r"/\*.*?\*/", "", text, flags=re.S))


def parts_of(text):
    """The parameters of a list, or the fields of a struct, which commas or semicolons end."""
    return [" ".join(part.split()) for part in re.split(r"[,;]", text) if part.strip()]


class Library:
    """What the crate exports: functions, and the structs that cross to C."""

    def __init__(self, root):
        paths = [it for it in files_in(f"{root}/{CRATE}/src") if it.endswith(".rt")]
        text = without_comments("\n".join(map(read, paths)))
        self.functions = {name: (parts_of(words), result) for name, words, result in EXPORT.findall(text)}
        self.structs = {name: self.fields_in(body) for name, body in STRUCT.findall(text)}

    @staticmethod
    def fields_in(body):
        """The names and types of a struct's fields, without proofs."""
        fields = re.sub(r"(?:pub(?:\(crate\))? )?ghost \w+: \{[^}]*\}(?: by \{[^}]*\})?,?", "", body)
        pairs = [re.sub(r"^pub(\(crate\))? ", "", it).split(": ", 1) for it in parts_of(fields)]
        return [(name, kind) for name, kind in pairs if kind != "Global"]

    def flat_fields(self, name):
        """The fields as C has them, with their types in C and their bytes: a struct within is in its field's place."""
        for field, kind in self.structs[name]:
            if kind in self.structs:
                inner = list(self.flat_fields(kind))
                yield from [(field if len(inner) == 1 else it[0], *it[1:]) for it in inner]
            else:
                yield (field, *(POINTER if kind.startswith("*") else NUMBERS[kind]))

    def words_of(self, name):
        """The types of a function's parameters in C, of which a struct's is its name in Rattle, as `const NAME *`."""
        for word in self.functions[name][0]:
            kind = word.split(": ", 1)[1]
            found = re.fullmatch(r"&(mut )?(?:\[(\w+)\]|(\w+))", kind)
            if kind == "Global":
                continue
            if not found:
                yield NUMBERS[kind][0]
                continue
            mutable, item, struct = found.groups()
            yield f"{'' if mutable else 'const '}{NUMBERS[item][0] if item else struct} *"
            if item:
                yield "size_t"


class Header:
    """What the header declares and defines."""

    def __init__(self, root):
        text = without_comments(read(f"{root}/{HEADER}"))
        self.functions = {name: (list(map(self.type_in, parts_of(words))), result) for result, name, words in DECLARED.findall(text)}
        self.structs = {name: list(map(self.field_in, parts_of(body))) for body, name in C_STRUCT.findall(text)}
        self.bodies = "\n".join(DEFINED.findall(text))
        self.versions = DEFINED_VERSION.findall(text)

    @staticmethod
    def type_in(word):
        """The type of a parameter."""
        return re.sub(r"(\*| )\w+$", r"\1", word).strip()

    @staticmethod
    def field_in(field):
        """The name and type of a field."""
        kind, name = re.fullmatch(r"(.*[ *])(\w+)", field).groups()
        return name, kind.strip()


def compare_words(name, library, header, named):
    """What is wrong with the parameters of a function; which struct of the header stands for which of the library is put into `named`."""
    wanted, found = list(library.words_of(name)), header.functions[name][0]
    if len(wanted) != len(found):
        yield f"{name} has {len(found)} parameters in the header, and {len(wanted)} in the library"
        return
    for at, (want, have) in enumerate(zip(wanted, found), 1):
        struct = re.fullmatch(r"(const )?(\w+) \*", want)
        if struct and struct.group(2) in library.structs:
            is_struct = re.fullmatch(rf"{struct.group(1) or ''}(\w+) \*", have)
            if not is_struct or is_struct.group(1) not in header.structs:
                yield f"{name}, parameter {at}: {have} in the header, {want} in the library"
            else:
                named.add((is_struct.group(1), struct.group(2)))
        elif want != have:
            yield f"{name}, parameter {at}: {have} in the header, {want} in the library"


def compare_struct(name, of_library, library, header):
    """What is wrong with a struct of the header. The fields of a handle have an underscore at their end."""
    wanted = [(field, kind) for field, kind, _ in library.flat_fields(of_library)]
    found = [(field.rstrip("_"), kind) for field, kind in header.structs[name]]
    if wanted != found:
        yield f"{name} has the fields {found} in the header, and {of_library} {wanted} in the library"


def compare(library, header):
    """What differs, a line for each fault, and the structs that stand for each other."""
    faults, named = [], set()
    for name in sorted(library.functions.keys() ^ header.functions.keys()):
        faults.append(f"{name} is in the {'library' if name in library.functions else 'header'} alone")
    for name in sorted(library.functions.keys() & header.functions.keys()):
        result = NUMBERS[library.functions[name][1]][0]
        if header.functions[name][1] != result:
            faults.append(f"{name} gives {header.functions[name][1]} in the header, and {result} in the library")
        faults += compare_words(name, library, header, named)
        if f"{name}(" not in header.bodies:
            faults.append(f"{name} is called by no function of the header")
    for of_header, of_library in sorted(named):
        faults += compare_struct(of_header, of_library, library, header)
    return faults, sorted(named)


def check_version(root, header):
    """What is wrong with the version, a line for each fault."""
    version = read(f"{root}/{VERSION}").split()[-1:]
    if header.versions != version:
        yield f"the version is {' '.join(header.versions) or 'nothing'} in the header, and {' '.join(version) or 'nothing'} in {VERSION}"


def layout(library, header, named):
    """C that compiles only where the header's structs have the library's sizes and offsets: each field is aligned to its bytes."""
    lines = ['#include "dmixlab.h"', "#ifdef __cplusplus", "#define SAME static_assert", "#else", "#define SAME _Static_assert", "#endif"]
    for of_header, of_library in named:
        at = widest = 0
        for (_, _, size), (name, _) in zip(library.flat_fields(of_library), header.structs[of_header]):
            at += -at % size
            is_there = f"offsetof({of_header}, {name}) == {at} && sizeof((({of_header} *)0)->{name}) == {size}"
            lines.append(f'SAME({is_there}, "{of_header}.{name}");')
            at, widest = at + size, max(widest, size)
        lines.append(f'SAME(sizeof({of_header}) == {at + -at % widest}, "{of_header}");')
    return "\n".join(lines) + "\n"


def symbols_in(archive):
    """The functions that an archive defines, and those that it wants."""
    try:
        ran = subprocess.run(["nm", "--extern-only", archive], capture_output=True, text=True)
    except FileNotFoundError:
        raise command.Refused("there is no nm to read the archive with") from None
    if ran.returncode:
        raise command.Refused(f"nm can't read {archive}: {ran.stderr.strip()}")
    words = [line.split() for line in ran.stdout.splitlines()]
    return {it[-1] for it in words if len(it) == 3 and it[1] == "T"}, {it[-1] for it in words if len(it) == 2 and it[0] == "U"}


def check_archive(archive, header):
    """What differs between an archive and the header, a line for each fault."""
    defined, wanted = symbols_in(archive)
    for name in sorted({it for it in defined if it.startswith("dmix_")} ^ header.functions.keys()):
        yield f"{name} is in the {'archive' if name in defined else 'header'} alone"
    for name in sorted(wanted - defined - FROM_OUTSIDE):
        yield f"the archive wants {name}, which neither the C library's part of it nor c/heap.c has"


def main():
    words = command.Words(__doc__)
    words.add_argument("--archive", metavar="FILE", help="also compares a built archive")
    words.add_argument("--layout", action="store_true", help="prints the sizes and offsets as C")
    asked = words.parse_args()
    library, header = Library(ROOT), Header(ROOT)
    faults, named = compare(library, header)
    faults += check_version(ROOT, header)
    if asked.archive:
        faults += check_archive(asked.archive, header)
    if asked.layout and not faults:
        print(layout(library, header, named), end="")
        return 0
    print("\n".join(faults) or f"{len(header.functions)} functions and {len(named)} structs are the library's")
    return 1 if faults else 0


if __name__ == "__main__":
    command.run(main)
