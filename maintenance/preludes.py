#!/usr/bin/env python3
"""Passes the names that proofs of a crate cite on from one place, specs/Prelude.antt of the crate.

    preludes.py             writes the Prelude of each crate anew, and the imports of its proofs
    preludes.py CRATE..     those of these crates
    preludes.py --count     counts lines, and writes nothing

What a proof imports is traced to the module that it comes from first, so this can run at any time, after any edit. A Prelude passes a
module on if two proofs or more cite names of it and have fewer lines so. These stay direct: a name that two modules spell alike, but for
the one cited more often; a module under another name (`as`); what rattle makes of a function (its Goals, Given and contracts); and the
crate's own proofs. A crate that gains few lines has no Prelude.

The status is 0, and 2 where a CRATE is none.
"""
from __future__ import annotations

import os
import re
import shutil
import sys
from collections import Counter, defaultdict

HERE = os.path.dirname(os.path.abspath(__file__))
ROOT = os.path.dirname(HERE)
sys.path.insert(0, HERE)
sys.path.insert(0, f"{ROOT}/tools")

import command
import crate_graph

NAME, WIDTH, LEAST_FILES, LEAST_LINES = "Prelude", 160, 2, 10
HEAD = "-- The names that most proofs of this crate cite, passed on from one place. Declares nothing."
USE = re.compile(r"^(?P<unfoldable>unfoldable )?(?P<passes>pub )?use (?P<module>[^{ ]+?)(?:\.\{(?P<names>.*)\})?(?: as \S+)?$")
UNFOLDING = re.compile(r"^\s*unfolding (.+)$|\bunfold ([^()]+?) in\b", re.M)
OF_FUNCTIONS = {"contracts", "Goals", "Given", "Key"}


def read(path):
    """The text of a file, or none where there is no such file."""
    if not os.path.exists(path):
        return ""
    with open(path, encoding="utf-8") as file:
        return file.read()


def write(path, text):
    """Writes a text to a file that doesn't have it yet."""
    if read(path) != text:
        with open(path, "w", encoding="utf-8") as file:
            file.write(text)


def bare(name):
    """A name without the other name that an import gives it."""
    return name.split(" as ")[0]


def order(name):
    """Words stand by the alphabet, before signs."""
    return not name[0].isalpha(), name.lower(), name


def imports_in(text):
    """The use lines of a file, matched."""
    return [use for use in map(USE.match, text.split("\n")) if use]


def is_plain(use):
    """Whether a line imports names, and passes none on."""
    return bool(use and use["names"] is not None and not use["passes"])


def wrapped(head, names):
    """The lines of one import, each as long as it may be."""
    rows = [[]]
    for name in names:
        if rows[-1] and len(f"{head}.{{{', '.join([*rows[-1], name])}}}") > WIDTH:
            rows.append([])
        rows[-1].append(name)
    return [f"{head}.{{{', '.join(row)}}}" for row in rows if row]


class Modules:
    """The modules of a repository and of the kit: what they pass on, and in which order they are listed."""

    def __init__(self, root):
        self.root, self.crates, self.known = root, list(crate_graph.read_lines(root)), {}
        self.kit = f"{os.path.dirname(os.path.dirname(os.path.realpath(shutil.which('rt') or '')))}/rattle"
        texts = {crate: read(self.prelude(crate)) for crate in self.crates}
        self.preludes = {f"Rattle.{crate}.specs.{NAME}" for crate, text in texts.items() if text.startswith(HEAD)}

    def prelude(self, crate):
        """The file of a crate's Prelude."""
        return f"{self.root}/crates/{crate}/specs/{NAME}.antt"

    def passed_on_by(self, module):
        """By the name that a module passes on, the module that it has it from, and its name there."""
        if module not in self.known:
            library, _, path = module.replace(".", "/").partition("/")
            places = [f"{folder}/{path}{end}" for folder in (f"{self.root}/crates", self.kit) for end in (".antt", "/Lib.antt")]
            text = next(filter(None, map(read, places)), "") if library == "Rattle" else ""
            pairs = [(use["module"], it) for use in imports_in(text) if use["passes"] and use["names"] for it in use["names"].split(", ")]
            self.known[module] = {it.split(" as ")[-1]: (origin, bare(it)) for origin, it in pairs}
        return self.known[module]

    def thing(self, module, name):
        """Where a name is declared: two modules that pass one thing on mean the same by it."""
        while name in self.passed_on_by(module):
            module, name = self.passed_on_by(module)[name]
        return module, name

    def origin(self, module, name):
        """The module that an import is from, where it goes through a Prelude."""
        return (self.passed_on_by(module)[bare(name)][0] if module in self.preludes else module), name

    def place(self, module):
        """Where a module stands in a list: std's first, then those of the logic, then those of crates from below."""
        parts = module.split(".")
        if parts[0] == "Rattle" and parts[1] in self.crates:
            return 2, self.crates.index(parts[1]), parts[2] != "specs", "declared" not in parts, module
        return (0 if module.startswith("Rattle.std.") else 1), 0, False, False, module


class Proof:
    """A file of proofs: its lines, the names that it imports with the modules that they come from, and which of them it unfolds."""

    def __init__(self, modules, path):
        self.path, self.lines = path, read(path).split("\n")
        uses = [USE.match(line) for line in self.lines]
        self.plain = [number for number, use in enumerate(uses) if is_plain(use)]
        self.others = sum(1 for use in uses if use and not is_plain(use))
        plain = [uses[number] for number in self.plain]
        self.goes_through = any(use["module"] in modules.preludes for use in plain)
        self.names = [modules.origin(use["module"], it) for use in plain for it in use["names"].split(", ")]
        said = " ".join(found[0] or found[1] for found in UNFOLDING.findall("\n".join(self.lines))).split()
        self.unfolded = {(module, bare(it)) for module, it in self.names if it.split(" as ")[-1] in said}

    def with_imports(self, lines):
        """The file's text with other plain imports, which stand where the first of them stood."""
        kept = [(number, line) for number, line in enumerate(self.lines) if number not in set(self.plain)]
        above = [line for number, line in kept if number < self.plain[0]]
        return "\n".join([*above, *lines, *(line for number, line in kept if number > self.plain[0])])


class Crate:
    """The proofs of a crate, and what its Prelude passes on."""

    def __init__(self, modules, name):
        self.modules, self.name, self.module = modules, name, f"Rattle.{name}.specs.{NAME}"
        self.folder = f"{modules.root}/crates/{name}"
        paths = [it for it in crate_graph.files_in(f"{self.folder}/proofs") if it.endswith(".antt") and not it.endswith("/Lib.antt")]
        self.proofs = [Proof(modules, path) for path in paths]
        self.things, self.sources, dropped = {}, {}, set()
        while few := self.cited_too_seldom(dropped):
            dropped |= few
        gained = sum(len(self.imports(it, False)) - len(self.imports(it, True)) for it in self.gaining())
        if gained - len(self.prelude()) < LEAST_LINES:
            self.things, self.sources = {}, {}

    def can_pass(self, module, name):
        """Whether a Prelude may pass a name of a module on."""
        is_own_proof = module.startswith(f"Rattle.{self.name}.proofs.")
        return not (is_own_proof or OF_FUNCTIONS & set(module.split(".")) or name.startswith("#"))

    def choose(self, dropped):
        """Chooses by name which thing is passed on, the one cited most often, and from which of the modules that have it."""
        cited = Counter((module, bare(it)) for proof in self.proofs for module, it in proof.names if self.can_pass(module, it))
        unfolded = {pair for proof in self.proofs for pair in proof.unfolded}
        homes, most = defaultdict(list), Counter()
        for module, name in sorted(cited):
            if module not in dropped:
                homes[name, self.modules.thing(module, name)].append(module)
        self.things, self.sources = {}, {}
        for (name, thing), found in sorted(homes.items()):
            count = sum(cited[module, name] for module in found)
            if count > most[name]:
                rank = {it: ((it, name) not in unfolded, -cited[it, name], self.modules.place(it)) for it in found}
                most[name], self.things[name], self.sources[name] = count, thing, min(found, key=rank.get)

    def cited_too_seldom(self, dropped):
        """Chooses without some modules, and gives those that too few files then gain by."""
        self.choose(dropped)
        cited = [{self.sources[bare(name)] for module, name in it.names if self.passes(module, name)} for it in self.gaining()]
        counts = Counter(module for found in cited for module in found)
        return {module for module in self.sources.values() if counts[module] < LEAST_FILES}

    def passes(self, module, name):
        """Whether the Prelude passes on what a proof imports."""
        is_passed = bare(name) in self.things and self.can_pass(module, name)
        return is_passed and self.modules.thing(module, bare(name)) == self.things[bare(name)]

    def gaining(self):
        """The proofs that have fewer lines with the Prelude."""
        return [it for it in self.proofs if len(self.imports(it, True)) < len(self.imports(it, False))]

    def imports(self, proof, is_through):
        """The plain imports of a proof: through the Prelude those that it passes on, or all of them direct."""
        through, direct = set(), defaultdict(list)
        for module, name in proof.names:
            if is_through and self.passes(module, name):
                through.add((self.sources[bare(name)], name))
            else:
                direct[module].append(name)
        ranked = sorted(through, key=lambda it: (self.modules.place(it[0]), order(it[1])))
        lines = [f"use {module}.{{{', '.join(direct[module])}}}" for module in sorted(direct, key=self.modules.place)]
        return [*wrapped(f"use {self.module}", [name for _, name in ranked]), *lines]

    def prelude(self):
        """The lines of the Prelude. What proofs unfold has lines of its own, since other names can't be passed on so."""
        unfolded, found = set(), defaultdict(set)
        for proof in self.gaining():
            unfolded |= {(self.sources[name], name) for module, name in proof.unfolded if self.passes(module, name)}
            for module, name in proof.names:
                if self.passes(module, name):
                    found[self.sources[bare(name)]].add(bare(name))
        lines = [HEAD]
        for module in sorted(found, key=self.modules.place):
            names = sorted(found[module], key=order)
            lines += wrapped(f"pub use {module}", [it for it in names if (module, it) not in unfolded])
            lines += wrapped(f"unfoldable pub use {module}", [it for it in names if (module, it) in unfolded])
        return lines

    def counts(self):
        """How many use lines the proofs have, how many they need, and how many lines the Prelude has."""
        gaining = set(self.gaining())
        now = sum(len(it.plain) + it.others for it in self.proofs)
        needed = sum(len(self.imports(it, it in gaining)) + it.others for it in self.proofs)
        return now, needed, len(self.prelude()) if self.things else 0

    def write(self):
        """Writes the Prelude, its line in specs/Lib.antt, and the imports of proofs."""
        gaining = set(self.gaining())
        for it in self.proofs:
            if it in gaining or it.goes_through:
                write(it.path, it.with_imports(self.imports(it, it in gaining)))
        path, lib, line = self.modules.prelude(self.name), f"{self.folder}/specs/Lib.antt", f"pub mod {NAME}"
        others = [it for it in read(lib).rstrip("\n").split("\n") if it and it != line]
        if self.things:
            write(path, "\n".join(self.prelude()) + "\n")
            at = next((number for number, it in enumerate(others) if it.startswith("pub mod ") and it > line), len(others))
            write(lib, "\n".join([*others[:at], line, *others[at:]]) + "\n")
        elif self.module in self.modules.preludes:
            os.remove(path)
            write(lib, "\n".join(others) + "\n")


def main():
    """Writes or counts the Preludes of the crates that are named, or of all."""
    reader = command.Words(__doc__)
    reader.add_argument("--count", action="store_true", help="counts lines, and writes nothing")
    reader.add_argument("crates", nargs="*", metavar="CRATE", help="the crates; none: all")
    given, modules, total = reader.parse_args(), Modules(ROOT), Counter()
    for it in given.crates:
        command.check_known(it, modules.crates, "crate")
    for name in given.crates or modules.crates:
        if all(os.path.isdir(f"{ROOT}/crates/{name}/{it}") for it in ("proofs", "specs")):
            crate = Crate(modules, name)
            now, needed, lines = crate.counts()
            total.update(now=now, needed=needed, lines=lines)
            if lines:
                print(f"{name}: {now} use lines of proofs, {needed} needed, and {lines} lines of its {NAME}")
            if not given.count:
                crate.write()
    print(f"{total['now']} use lines of proofs, {total['needed']} needed, and {total['lines']} lines of Preludes")
    return command.RIGHT


if __name__ == "__main__":
    command.run(main)
