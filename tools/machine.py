"""What the machine has, and the kit that is on the path. It is for what builds and tests crates.

As a command it has no words, and prints how many proofs fit side by side, which is what `make proof` gives as RT_JOBS."""
import os
import re
import shutil
import subprocess
import sys

sys.path.insert(0, os.path.dirname(os.path.abspath(__file__)))

import command

# the rest of the memory is left to others
PART_OF_MEMORY = 0.85
# where a group of processes has a limit of its own, as in a container
GROUP_LIMITS = (
    ("/sys/fs/cgroup/memory.max", "/sys/fs/cgroup/memory.current"),
    ("/sys/fs/cgroup/memory/memory.limit_in_bytes", "/sys/fs/cgroup/memory/memory.usage_in_bytes"),
)


def say(text):
    """Puts a line on standard error."""
    print(f"dmixlab: {text}", file=sys.stderr, flush=True)


def number_in(path, pattern):
    """The number that the pattern finds in a file, or None."""
    try:
        with open(path, encoding="ascii") as file:
            found = re.search(pattern, file.read())
    except (OSError, ValueError):
        return None
    return int(found.group(1)) if found else None


def free_memory():
    """The bytes of memory that can be taken."""
    kilobytes = number_in("/proc/meminfo", r"MemAvailable:\s+(\d+)")
    found = [1024 * kilobytes] if kilobytes else [1 << 32]
    for limit, held in GROUP_LIMITS:
        limit, held = number_in(limit, r"^(\d+)"), number_in(held, r"^(\d+)")
        if limit and held is not None:
            found.append(limit - held)
    return int(PART_OF_MEMORY * min(found))


def processors():
    """The processors that this process may use."""
    found = len(os.sched_getaffinity(0))
    quota = number_in("/sys/fs/cgroup/cpu.max", r"^(\d+) \d+")
    period = number_in("/sys/fs/cgroup/cpu.max", r"^\d+ (\d+)")
    return min(found, max(1, quota // period)) if quota and period else found


def lanes_for(memory_of_one):
    """How many processes that take so much memory each can run side by side."""
    return max(1, min(processors(), free_memory() // memory_of_one))


class NoKit(Exception):
    """There is no toolchain; the text says what misses."""


class Kit:
    """The toolchain whose command rt is on the path."""

    def __init__(self):
        if not shutil.which("rt"):
            raise NoKit(
                "there is no command rt on the path. It proves and builds the program, and comes with Rattle's toolchain, in the folder bin of"
                " its kit. README.md names the kit under 'What is proved'"
            )
        self.version, page = self.ask("version"), self.ask("doc")
        self.at = os.path.dirname(page)
        if not os.access(f"{self.at}/bin/rattle", os.X_OK):
            raise NoKit(f"there is no {self.at}/bin/rattle beside the page {page} that `rt doc` names")

    @staticmethod
    def ask(word):
        ran = subprocess.run(["rt", word], stdin=subprocess.DEVNULL, stdout=subprocess.PIPE, text=True)
        if ran.returncode or not ran.stdout.strip():
            raise NoKit(f"`rt {word}` ends with status {ran.returncode}, and doesn't say what is asked")
        return ran.stdout.strip()

    def warn_of_another(self, readme):
        """Says so where README names another kit."""
        with open(readme, encoding="utf-8") as file:
            named = re.search(r"Proved with `([^`]*)`", file.read())
        if named and named.group(1) != self.version:
            say(f"this is {self.version}; README.md names {named.group(1)}. It is taken all the same")


def main():
    """Prints as many proofs as fit side by side, for RT_JOBS."""
    command.no_words(__doc__)
    print(lanes_for(2_500_000_000))
    return 0


if __name__ == "__main__":
    command.run(main)
