"""The crates of a repository, by its crates.txt: what each uses, its files, and the work that waits for it.

It is for what builds and tests crates, and no command of its own."""
import os

# what a crate states that another uses is read in the time in which so many bytes of functions are proved
LIBRARY_SIZE = 400
PROVED_FILES = ("src", "specs", "proofs")


def read_lines(root):
    """What stands behind the colon of each crate's line in crates.txt, by the crate's name."""
    with open(f"{root}/crates.txt", encoding="utf-8") as file:
        lines = [line.split("#")[0].strip() for line in file]
    parts = [line.partition(":") for line in lines if line]
    return {head.split()[0]: tail.split() for head, _, tail in parts}


def uses_of(lines):
    """The crates of the repository that each crate uses."""
    return {name: [it for it in used if it in lines] for name, used in lines.items()}


def below(uses, name):
    """The crates that a crate uses, and those below them."""
    found, left = set(), list(uses[name])
    while left:
        it = left.pop()
        if it not in found:
            found.add(it)
            left += uses[it]
    return found


def files_in(folder):
    """The files below a folder, by name."""
    return sorted(f"{at}/{name}" for at, _, names in os.walk(folder) for name in names)


def source_size(crate):
    """The bytes of a crate's functions, without its tests."""
    files = [it for it in files_in(f"{crate}/src") if it.endswith(".rt")]
    return sum(os.path.getsize(it) for it in files if "tests" not in os.path.relpath(it, crate))


def work_of(root, uses, name):
    """The work of a crate's proof, in bytes of functions."""
    return source_size(f"{root}/crates/{name}") + LIBRARY_SIZE * len(below(uses, name))


def chains(root, uses, wanted):
    """The work of the longest chain that begins with each wanted crate, up to the topmost: the greatest goes first."""
    found = {}

    def chain(name):
        if name not in found:
            above = [it for it in wanted if name in uses[it]]
            found[name] = work_of(root, uses, name) + max(map(chain, above), default=0)
        return found[name]

    return {name: chain(name) for name in wanted}
