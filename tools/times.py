"""Runs a command and says, crate by crate, what the checks that it makes have taken: how many there were, and minutes of
wall time and of processor, of the crate's own proof and of its edits. What the command prints goes to standard output,
the table to standard error. It looks twice a second, so what a short check took is rough.

usage: python3 -m tools.times COMMAND ..
COMMAND: `./check --proofs --only proofs` proves all crates; `./check --edits` tries every edit too
"""

import collections
import os
import subprocess
import sys
import time
from typing import NamedTuple

TICK = os.sysconf("SC_CLK_TCK")
PAUSE = 0.5  # seconds

# what a check is of: a crate, and whether it is a proof or an edit
Work = tuple[str, str]


class Process(NamedTuple):
    """A process: its parent, and the processor time that it took."""

    parent: int
    seconds: float


def processes() -> dict[int, Process]:
    """All processes, with their parents, and the processor time that they and their ended children took."""
    found = {}
    for word in filter(str.isdigit, os.listdir("/proc")):
        try:
            with open(f"/proc/{word}/stat", encoding="utf-8", errors="replace") as file:
                text = file.read()
        except OSError:
            continue
        fields = text[text.rindex(")") + 2 :].split()
        found[int(word)] = Process(int(fields[1]), sum(map(int, fields[11:15])) / TICK)
    return found


def below(found: dict[int, Process], top: int) -> set[int]:
    """The processes that a process has started, and those that these have."""
    mine, more = set[int](), {top}
    while more:
        mine |= more
        more = {number for number, process in found.items() if process.parent in mine} - mine
    return mine - {top}


def work_of(number: int) -> Work | None:
    """The crate that a process checks, and whether it is a proof or an edit's check; None of any other process."""
    try:
        with open(f"/proc/{number}/cmdline", encoding="utf-8", errors="replace") as file:
            words = file.read().split("\0")
        folder = os.readlink(f"/proc/{number}/cwd")
    except OSError:
        return None
    if os.path.basename(words[0]) != "rattle" or words[1:2] not in (["check"], ["build"]) or "--crate-name" not in words:
        return None
    return words[words.index("--crate-name") + 1], "edits" if "rt-edit" in folder else "proof"


class Times:
    """What checks have taken, by crate and kind."""

    def __init__(self) -> None:
        self.checks = collections.Counter[Work]()
        self.wall: dict[Work, float] = collections.defaultdict(float)
        self.processor: dict[Work, float] = collections.defaultdict(float)
        # of each process its work, when it began, and the processor time that was seen of it
        self.running: dict[int, tuple[Work, float, float]] = {}

    def look(self, found: dict[int, Process], mine: set[int]) -> None:
        """Looks at the processes that run."""
        for number in mine - self.running.keys():
            # a check's own copies are counted with it
            work = work_of(number) if found[number].parent not in self.running else None
            if work:
                self.running[number] = work, time.monotonic(), 0.0
        for number, (work, began, seconds) in list(self.running.items()):
            if number in found:
                copies = sum(process.seconds for process in found.values() if process.parent == number)
                self.running[number] = work, began, max(seconds, found[number].seconds + copies)
        for number in self.running.keys() - found.keys():
            work, began, seconds = self.running.pop(number)
            self.checks[work] += 1
            self.wall[work] += time.monotonic() - began
            self.processor[work] += seconds

    def show(self, spent: float) -> None:
        """Prints what each crate took, and all."""
        print(f"\n{'crate':16}{'what':8}{'checks':>7}{'minutes':>9}{'of processor':>14}", file=sys.stderr)
        for work in sorted(self.checks):
            wall, processor = self.wall[work] / 60, self.processor[work] / 60
            print(f"{work[0]:16}{work[1]:8}{self.checks[work]:7}{wall:9.1f}{processor:14.1f}", file=sys.stderr)
        for kind in ("proof", "edits"):
            whole = sum(seconds for work, seconds in self.processor.items() if work[1] == kind) / 60
            print(f"all {kind}: {whole:.1f} minutes of processor", file=sys.stderr)
        print(f"the whole run: {spent / 60:.1f} minutes", file=sys.stderr)


def main() -> int:
    words = sys.argv[1:]
    if words[:1] in (["--help"], ["-h"]):
        print(__doc__)
        return 0
    if not words:
        print(__doc__, file=sys.stderr)
        return 1
    times, began = Times(), time.monotonic()
    with subprocess.Popen(words) as run:
        while run.poll() is None:
            found = processes()
            times.look(found, below(found, run.pid))
            time.sleep(PAUSE)
    times.look({}, set())
    times.show(time.monotonic() - began)
    return run.returncode


if __name__ == "__main__":
    sys.exit(main())
