"""The crates of the repository: the product's in crates/, and those that are run and never proved in tests/unit/ and
bench/, each folder with its list; and copies of them as `rt` wants them, one folder crates/ with one list."""

import hashlib
import os
import shutil
import subprocess
from collections.abc import Iterable, Iterator

TOP = os.path.dirname(os.path.dirname(os.path.dirname(os.path.abspath(__file__))))
CRATES = os.path.join(TOP, "crates")
# the folders of crates that are run and never proved, as seen from the top: tests, and what measures
TESTS, MEASURES = os.path.join("tests", "unit"), "bench"

# what `rt` reads of a crate, and what it runs a program on
PARTS = ("src", "specs", "proofs")
GIVEN = ("stdin", "stdout", "args", "status", "data")


def listed(path: str) -> dict[str, list[str]]:
    """The crates of a list, in its order, each with what it stands on: none where it is not there."""
    if not os.path.isfile(path):
        return {}
    with open(path, encoding="utf-8") as file:
        lines = [line.partition(":") for line in file if ":" in line and not line.startswith("#")]
    return {name.strip(): words.split() for name, _, words in lines}


def product(top: str = TOP) -> dict[str, list[str]]:
    """The product's crates."""
    return listed(os.path.join(top, "crates.txt"))


def tests(top: str = TOP) -> dict[str, list[str]]:
    """The crates of tests."""
    return listed(os.path.join(top, TESTS, "crates.txt"))


def measures(top: str = TOP) -> dict[str, list[str]]:
    """The crates that measure."""
    return listed(os.path.join(top, MEASURES, "crates.txt"))


def lists_of(top: str = TOP) -> list[str]:
    """The paths of the lists of crates."""
    return [os.path.join(top, *folder, "crates.txt") for folder in ((), (TESTS,), (MEASURES,))]


def crates(top: str = TOP) -> dict[str, list[str]]:
    """All crates: the product's, and those that are run and never proved."""
    return product(top) | tests(top) | measures(top)


def folders_of(names: Iterable[str], top: str = TOP) -> Iterator[str]:
    """The folders of crates, in their order."""
    proved, measured = product(top), measures(top)
    for name in names:
        yield os.path.join(top, "crates" if name in proved else MEASURES if name in measured else TESTS, name)


def folder_of(name: str, top: str = TOP) -> str:
    """The folder of a crate."""
    return next(folders_of([name], top))


def with_all_below(names: Iterable[str], top: str = TOP) -> list[str]:
    """Crates, and all crates of the repository that they stand on, in the order of the lists."""
    lists, wanted, found = crates(top), list(names), set[str]()
    while wanted:
        name = wanted.pop()
        if name in lists and name not in found:
            found.add(name)
            wanted += lists[name]
    return [name for name in lists if name in found]


def has_program(name: str, top: str = TOP) -> bool:
    """Whether a crate is a program."""
    return os.path.isfile(os.path.join(folder_of(name, top), "src", "main.rt"))


def copy_crate(name: str, to: str, parts: Iterable[str], top: str = TOP) -> None:
    """Copies so much of a crate."""
    folder = folder_of(name, top)
    for part in parts:
        path = os.path.join(folder, part)
        if os.path.isdir(path):
            shutil.copytree(path, os.path.join(to, part))
        elif os.path.isfile(path):
            os.makedirs(to, exist_ok=True)
            shutil.copy(path, to)


def write_list(path: str, lists: dict[str, list[str]]) -> None:
    """Writes a list of crates."""
    with open(path, "w", encoding="utf-8") as file:
        file.write("".join(f"{name}: {' '.join(words)}\n" for name, words in lists.items()))


def lay_out(
    to: str, names: Iterable[str], parts: Iterable[str] = PARTS, edits: Iterable[str] = (), top: str = TOP,
) -> list[str]:
    """Copies crates, and all that they stand on, to a folder: of each the parts that `rt` reads, and of some the edits
    too."""
    found = with_all_below(names, top)
    for name in found:
        more = ("must-fail",) if name in edits else ()
        copy_crate(name, os.path.join(to, "crates", name), (*parts, *more), top)
    lists = crates(top)
    write_list(os.path.join(to, "crates.txt"), {name: lists[name] for name in found})
    shutil.copy(os.path.join(top, "HANDLES"), to)
    return found


def sources(names: Iterable[str], top: str = TOP) -> list[str]:
    """The files that crates are built from, with all that they stand on, in the order of their paths."""
    found: list[str] = []
    for folder in folders_of(with_all_below(names, top), top):
        for part in PARTS:
            for at, _, files in os.walk(os.path.join(folder, part)):
                found += [os.path.join(at, file) for file in files]
    return sorted(found)


def commit(top: str = TOP) -> str:
    """The name of the commit that has the sources that are there, or `uncommitted` where none has."""

    def git(*words: str) -> str | None:
        run = subprocess.run(["git", *words], cwd=top, capture_output=True, text=True, check=False)
        return run.stdout.strip() if run.returncode == 0 else None

    if not shutil.which("git") or os.path.realpath(git("rev-parse", "--show-toplevel") or "/") != os.path.realpath(top):
        return "uncommitted"
    changed = git("status", "--porcelain", "--", "crates", "crates.txt", "HANDLES")
    head = git("rev-parse", "HEAD") if changed == "" else None
    return head or "uncommitted"


def digest(names: Iterable[str], top: str = TOP) -> str:
    """A digest of all that programs are built from: their sources, and what stands on what."""
    lists, summed = crates(top), hashlib.sha256()
    for name in with_all_below(names, top):
        summed.update(f"{name}: {' '.join(lists[name])}\n".encode())
    for path in sources(names, top):
        with open(path, "rb") as file:
            octets = file.read()
        summed.update(f"{os.path.relpath(path, top)} {len(octets)}\n".encode())
        summed.update(octets)
    return summed.hexdigest()
