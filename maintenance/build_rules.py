#!/usr/bin/env python3
"""build_rules.py: writes build/rules.mk, the rules by which `make` proves the crates that the program dmixlab uses, and builds it; and those
by which `make library` builds the static library for C.

Each crate has a rule. Its recipe is the kit's `rattle build --statements` in the crate's folder, over what the libraries below it state, and
it makes a mark once the crate is proved. It has to be run anew where one of the crate's files is newer than its mark, where a crate below was
proved anew, and where its line, the list of its files or the kit is another one. The longest chain of crates comes first among what the
program needs.

The exit status is 70 where there is no toolchain. `make` calls it; it is fast, and writes no file that would be the same."""
import os
import sys

ROOT = os.path.dirname(os.path.dirname(os.path.abspath(__file__)))
sys.path.insert(0, f"{ROOT}/tools")

import command
from crate_graph import PROVED_FILES, below, chains, files_in, read_lines, uses_of
from machine import Kit, NoKit, say

PROGRAM, STATIC_LIBRARY, NO_KIT = "dmixlab", "dmix_c", 70
# rt refuses files of crates anywhere but in the crates, and in their folders out/rlib, which no commit has
LIBRARIES = f"crates/{PROGRAM}/out/rlib"
HEAD = f"""# Made by maintenance/build_rules.py.
.DELETE_ON_ERROR:
.SUFFIXES:
MAKEFLAGS += --no-builtin-rules
# the prover's allocator otherwise gives memory back to the system and soon asks for it anew
export MIMALLOC_PURGE_DELAY ?= -1

build/{PROGRAM}: {LIBRARIES}/{PROGRAM}.proved
"""


def write_if_new(path, text):
    """Writes a file, where it isn't as it is to be."""
    try:
        with open(path, encoding="utf-8") as file:
            if file.read() == text:
                return
    except FileNotFoundError:
        os.makedirs(os.path.dirname(path), exist_ok=True)
    with open(path, "w", encoding="utf-8") as file:
        file.write(text)


def words_for(kit, lines, name):
    """The words of the prover for a crate, in the crate's folder: `rattle build --help` explains them."""
    libraries = f"../../{LIBRARIES}"
    used = [f"{it}={libraries if it in lines else kit.at + '/rlibs'}/{it}.rlib" for it in lines[name]]
    source, how, made = "lib", ["--statements"], "rlib"
    if name == PROGRAM:
        source, how, made = "main", ["--toolchain", f"{kit.at}/toolchain", "--backend", "llvm"], "o"
    elif name == STATIC_LIBRARY:
        how, made = ["--crate-type", "staticlib", "--toolchain", f"{kit.at}/toolchain"], "a"
    return [
        *(f"{kit.at}/bin/rattle", "build", "--crate-name", name, f"src/{source}.rt"),
        *(word for it in [f"std={kit.at}/rlibs/std.rlib", *used] for word in ("--extern", it)),
        *("-L", f"dependency={kit.at}/rlibs", "-L", f"dependency={libraries}"),
        *("--antt-project", f"{kit.at}/rattle/logic/antt-project.json", "--logic-built", f"{kit.at}/logic_built", "--links", f"{name}="),
        *(*how, "-o", f"{libraries}/{name}.{made}"),
    ]


def link_words(kit):
    """The words that link the program."""
    c_library = [f"{kit.at}/c/{it}" for it in ("libos_c.a", "liblibc_c.a")]
    place = ["--target", "x86_64-unknown-linux-gnu", "--toolchain", f"{kit.at}/toolchain", "-o", f"build/{PROGRAM}"]
    return [f"{kit.at}/bin/rattle-link", *place, f"{LIBRARIES}/{PROGRAM}.o", *c_library]


def rule_of(root, kit, lines, name, order, work):
    """The rule of a crate, whose words and list of files are a file of their own: where they change, so does it. Its proof has its turn by the
    work of the chain of crates from it."""
    crate = f"{root}/crates/{name}"
    files = [os.path.relpath(it, root) for part in PROVED_FILES for it in files_in(f"{crate}/{part}")]
    words = " ".join(words_for(kit, lines, name))
    write_if_new(f"{root}/build/words/{name}", "\n".join([kit.version, words, *files, ""]))
    marks = [f"{LIBRARIES}/{it}.proved" for it in order if it in lines[name]]
    needed = " ".join([f"build/words/{name}", *files, *marks])
    return f"\n{LIBRARIES}/{name}.proved: {needed}\n\t@maintenance/prove_crate.sh {name} $@ {work} {words}\n"


def rules(root, kit):
    """All rules, with the longest chain of crates first, and the names of the program's crates."""
    lines = read_lines(root)
    uses = uses_of(lines)
    wanted = [PROGRAM, *below(uses, PROGRAM)]
    of_library = [STATIC_LIBRARY, *below(uses, STATIC_LIBRARY)] if STATIC_LIBRARY in lines else []
    # how long the program's chains are doesn't go by the library
    length = {**chains(root, uses, of_library), **chains(root, uses, wanted)}
    every = sorted(length, key=lambda it: (-length[it], it))
    order = [it for it in every if it in wanted]
    marks = " ".join(f"{LIBRARIES}/{it}.proved" for it in order)
    link = " ".join(link_words(kit))
    text = HEAD.replace(f": {LIBRARIES}/{PROGRAM}.proved", f": {marks}") + f"\t@{link}\n"
    if of_library:
        made = f"{LIBRARIES}/{STATIC_LIBRARY}"
        text += f"\nbuild/lib{STATIC_LIBRARY}.a: {made}.proved\n\t@cp {made}.a $@\n"
    return text + "".join(rule_of(root, kit, lines, it, every, length[it]) for it in every), order


def main():
    command.no_words(__doc__)
    try:
        kit = Kit()
        kit.warn_of_another(f"{ROOT}/README.md")
    except NoKit as error:
        say(error)
        return NO_KIT
    for it in (f"{ROOT}/build/logs", f"{ROOT}/{LIBRARIES}"):
        os.makedirs(it, exist_ok=True)
    text, names = rules(ROOT, kit)
    write_if_new(f"{ROOT}/build/rules.mk", text)
    # what is changed from now on is newer than this file, which names the program's crates, and becomes build/built once it is built
    with open(f"{ROOT}/build/begun", "w", encoding="utf-8") as file:
        file.writelines(f"{it}\n" for it in names)
    return 0


if __name__ == "__main__":
    command.run(main)
