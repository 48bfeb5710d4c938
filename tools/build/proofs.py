"""Proves crates and builds programs by `rt ci`, which proves many at once and keeps by checksums what it passed. It runs
on a copy, which has the crates that are wanted and the edits whose turn it is, and leaves the programs that it built
there: so they are taken from the copy, and no program is proved a second time."""

import os
import re
import shutil
import subprocess
import sys
import tempfile
import time
from collections.abc import Callable, Iterable

from tools.build import current, repository

# the octets that the check of a crate takes at most; most take a third of it
LARGEST = 5_000_000_000

SUMMARY = re.compile(r"(\d+) passed, (\d+) failed")
# what `rt ci` says as soon as it has proved a crate, or knows that an earlier run has
PROVED = re.compile(r"^rt: (\w+)(?: proved| is kept: .*)$")


def program(name: str, top: str = repository.TOP) -> str:
    """Where the proved program of a crate stands."""
    return os.path.join(repository.folder_of(name, top), "out", name)


def is_current(name: str, top: str = repository.TOP) -> bool:
    """Whether the proved program of a crate is there, and built from the sources that are there."""
    return current.is_current(program(name, top), name, top)


def programs(names: Iterable[str], top: str = repository.TOP) -> list[str]:
    """The crates among these that are programs."""
    return [name for name in names if repository.has_program(name, top)]


class Progress:
    """How much of the crates is proved. Their lines are taken for the work: some crates take more for a line than others."""

    def __init__(self, names: Iterable[str], top: str) -> None:
        self.lines = {name: self.lines_of(name, top) for name in names}
        self.proved, self.began = set[str](), time.monotonic()

    @staticmethod
    def lines_of(name: str, top: str) -> int:
        """The lines of a crate's files."""
        count = 0
        for part in repository.PARTS:
            for at, _, files in os.walk(os.path.join(repository.folder_of(name, top), part)):
                for file in files:
                    with open(os.path.join(at, file), "rb") as text:
                        count += text.read().count(b"\n")
        return count

    def note(self, name: str) -> None:
        """Notes that a crate is proved."""
        self.proved.add(name)

    def told(self) -> str:
        """How far the proofs are, and how long the rest may take."""
        done, of = sum(self.lines[name] for name in self.proved), sum(self.lines.values())
        spent = time.monotonic() - self.began
        rest = f", about {spent * (of - done) / done / 60:.0f} minutes left" if 0 < done < of else ""
        return f"{len(self.proved)} of {len(self.lines)} crates are proved after {spent / 60:.1f} minutes{rest}"


def crates_at_once() -> int:
    """How many crates are proved at once: one a processor, as far as memory holds them."""
    with open("/proc/meminfo", encoding="ascii") as file:
        free = next(int(line.split()[1]) for line in file if line.startswith("MemAvailable:"))
    return max(1, min(len(os.sched_getaffinity(0)), free * 1024 // LARGEST))


def keeps() -> bool:
    """Whether the kit keeps what a run passed for the next one."""
    told = subprocess.run(["rt", "help"], stdin=subprocess.DEVNULL, capture_output=True, text=True, check=False)
    return "--anew" in told.stdout + told.stderr


def last_proved(names: list[str], many: int, top: str) -> list[str]:
    """The crates among these that are proved last, fewer than `many`: the one that stands on most others, and from it down
    the largest of those on which only these stand. Each of them waits for almost all others."""
    below = {name: set(repository.with_all_below([name], top)) - {name} for name in names}
    found = [max(names, key=lambda name: len(below[name]))]
    while len(found) < many:
        # what no other crate than these stands on
        ready = below[found[0]].difference(found, *(below[name] for name in names if name not in found))
        if not ready:
            break
        found.append(max(sorted(ready), key=lambda name: Progress.lines_of(name, top)))
    return found[: max(0, many - 1)]


def run_gate(
    folder: str, words: list[str], variables: dict[str, str], hear: Callable[[str], object],
) -> tuple[int, int]:
    """Runs `rt ci`, or what stands for it, in a folder, and hands on each line that it prints: what passed and failed."""
    last = ""
    with subprocess.Popen(
        words, cwd=folder, env=variables | os.environ, stdin=subprocess.DEVNULL, stdout=subprocess.PIPE,
        stderr=subprocess.STDOUT, text=True, errors="replace",
    ) as run:
        assert run.stdout is not None
        for line in run.stdout:
            # its last line is told as a part of something larger
            if SUMMARY.fullmatch(line.strip()):
                last = line.strip()
            else:
                hear(line.rstrip("\n"))
    told = SUMMARY.fullmatch(last)
    passed, failed = (int(told[1]), int(told[2])) if told else (0, 1)
    return passed, max(failed, int(run.returncode != 0))


def put(folder: str, digests: dict[str, str], top: str) -> None:
    """Puts the programs that `rt ci` has built in a folder where they belong, each with what it was built from."""
    for name, digest in digests.items():
        made, path = os.path.join(folder, "crates", name, "out", name), program(name, top)
        os.makedirs(os.path.dirname(path), exist_ok=True)
        # a program that runs goes on as it is
        shutil.copy(made, f"{path}.new")
        os.replace(f"{path}.new", path)
        current.note(path, digest)


def prove_first(names: Iterable[str], top: str, hear: Callable[[str], object]) -> int:
    """Proves crates, one a processor: what failed. The kit keeps what passed."""
    with tempfile.TemporaryDirectory(prefix="radlimit-proofs-") as folder:
        repository.lay_out(folder, names, top=top)
        return run_gate(folder, ["rt", "ci"], {"RT_JOBS": str(crates_at_once())}, hear)[1]


def prove_in(folder: str, names: list[str], anew: bool, top: str, hear: Callable[[str], object]) -> tuple[int, int]:
    """Proves what is laid out in a folder: what passed and failed.

    `rt ci` gives each proof one processor where it is told how many to do at once, and else reckons several times the memory
    that a check takes, and does those high up one by one. So a kit that keeps what passed proves most crates first, one a
    processor, and then those that are left when there are fewer of them than processors (tools/build/spread.py)."""
    many = crates_at_once()
    words, jobs = ["rt", "ci"], {"RT_JOBS": str(many)}
    if not keeps():
        return run_gate(folder, words, jobs, hear)
    if anew:
        return run_gate(folder, [*words, "--anew"], jobs, hear)
    last = last_proved(names, many, top)
    # a program is run after its proof, and that once
    first = [name for name in names if name not in last and not repository.has_program(name, top)]
    if not last or not first or "RT_JOBS" in os.environ:
        return run_gate(folder, words, jobs, hear)
    failed = prove_first(first, top, hear)
    if failed:
        return 0, failed
    hear(f"radlimit: the last proofs, each on several processors: {', '.join(reversed(last))}")
    words = [sys.executable, "-Bm", "tools.build.spread", "ci"]
    return run_gate(folder, words, {"PYTHONPATH": repository.TOP}, hear)


def prove(
    names: Iterable[str], edits: Iterable[str] = (), anew: bool = False, top: str = repository.TOP,
    hear: Callable[[str], object] = print,
) -> tuple[int, int]:
    """Proves crates and all that they stand on, tries the edits of some, runs the programs as two compilers build them,
    and puts these where they belong: what passed and failed. `hear` is handed each line, and after a crate how far it is."""
    with tempfile.TemporaryDirectory(prefix="radlimit-proofs-") as folder:
        digests = {name: repository.digest([name], top) for name in programs(repository.with_all_below(names, top), top)}
        found = repository.lay_out(folder, names, repository.PARTS + repository.GIVEN, edits, top)
        progress = Progress(found, top)

        def hear_all(line: str) -> None:
            hear(line)
            told = PROVED.match(line)
            if told and told[1] in progress.lines and told[1] not in progress.proved:
                progress.note(told[1])
                hear(f"radlimit: {progress.told()}")

        passed, failed = prove_in(folder, found, anew, top, hear_all)
        if failed == 0:
            put(folder, digests, top)
    sys.stdout.flush()
    return passed, failed
