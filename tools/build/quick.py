"""A quick proof of one crate, or of one function of it. The libraries below it are taken from what runs of `rt ci` kept on
this machine, and those that nobody kept are proved first, by `rt ci`, which keeps them. It works in a folder that stays,
so that the next call goes on from the work of this one."""

import fcntl
import os
import shutil
import time
from collections.abc import Iterator
from types import ModuleType
from typing import Any

from tools.build import current, proofs, repository
from tools.build.telling import Waiting, hear

FOLDER = os.path.join(repository.TOP, "out", "crates")
EDITS = "must-fail"
# what is taken of the kit's `rt`, which promises none of it
INTERNALS = ("Kept", "Crate", "crates_of", "handles_of")


def say(text: str) -> None:
    """One line of progress."""
    print(f"check: {text}", flush=True)


def files_below(folder: str) -> Iterator[str]:
    """The files below a folder, by their paths in it."""
    for at, _, names in os.walk(folder):
        for name in names:
            yield os.path.relpath(os.path.join(at, name), folder)


def octets_of(path: str) -> bytes | None:
    """What a file holds, None where it is not there."""
    try:
        with open(path, "rb") as file:
            return file.read()
    except (FileNotFoundError, NotADirectoryError):
        return None


def put(path: str, octets: bytes) -> int:
    """Writes a file if it holds something else: how many were written."""
    if octets_of(path) == octets:
        return 0
    os.makedirs(os.path.dirname(path), exist_ok=True)
    with open(path, "wb") as file:
        file.write(octets)
    return 1


def copy_part(given: str, taken: str) -> int:
    """Makes a folder hold the files that another one holds: how many were written or taken away."""
    changed, wanted = 0, set(files_below(given))
    for name in set(files_below(taken)) - wanted:
        os.remove(os.path.join(taken, name))
        changed += 1
    for name in wanted:
        changed += put(os.path.join(taken, name), octets_of(os.path.join(given, name)) or b"")
    return changed


def copy_crates(name: str, top: str, folder: str) -> int:
    """Brings the copy of the product's crates to what they are now, with the edits of one: how many files changed."""
    lists, changed = repository.product(top), 0
    os.makedirs(os.path.join(folder, "crates"), exist_ok=True)
    for gone in set(os.listdir(os.path.join(folder, "crates"))) - lists.keys():
        shutil.rmtree(os.path.join(folder, "crates", gone))
    for crate in lists:
        for part in (*repository.PARTS, EDITS):
            given = os.path.join(repository.folder_of(crate, top), part)
            if part == EDITS and crate != name:
                given = os.devnull
            changed += copy_part(given, os.path.join(folder, "crates", crate, part))
    for file in ("crates.txt", "HANDLES"):
        changed += put(os.path.join(folder, file), octets_of(os.path.join(top, file)) or b"")
    # `rt ci` runs at the top of a repository
    os.makedirs(os.path.join(folder, ".git"), exist_ok=True)
    return changed


class Libraries:
    """The libraries below a crate, in the copy, and what is kept of them on this machine."""

    def __init__(self, rt: ModuleType, name: str, folder: str):
        rt.Crate.allowed = rt.handles_of(folder)
        crates = rt.crates_of(folder)
        self.kept: Any = rt.Kept(crates)
        self.crate = next(crate for crate in crates if crate.name == name)
        self.noted: set[str] = set()
        # nothing changes these files meanwhile, so that they are read once
        if hasattr(rt, "STAMPS"):
            rt.STAMPS.seen = {}

    def note(self, crate: Any) -> None:
        """Notes what a library that is there is made of, for the names of those above."""
        if crate.name not in self.noted:
            self.kept.is_built(crate)
            self.noted.add(crate.name)

    def give(self, crate: Any) -> bool:
        """Puts a library where a check looks for it, if it is kept: whether it is there."""
        if crate.is_built():
            return True
        for low in crate.below():
            self.note(low)
        # a file that is there would be written over, and be a kept one by another name
        shutil.rmtree(os.path.join(crate.folder, "out", "rlib"), ignore_errors=True)
        os.makedirs(os.path.join(crate.folder, "out"), exist_ok=True)
        if not self.kept.give(crate, False, self.kept.key(crate)):
            return False
        self.note(crate)
        with open(os.path.join(crate.folder, "out", "rlib", "stamp"), "w", encoding="ascii") as file:
            file.write(crate.stamp())
        return True

    def give_all(self) -> tuple[list[str], list[str]]:
        """Puts all libraries there that are kept: those that are not, and those that stand on such a one, so that nobody
        knows."""
        missing, unknown = list[str](), list[str]()
        for crate in self.crate.below():
            if any(low.name in missing for low in crate.below()):
                unknown.append(crate.name)
            elif not self.give(crate):
                missing.append(crate.name)
        return missing, unknown


def look_for(rt: ModuleType, name: str, folder: str) -> tuple[list[str], list[str]]:
    """The same of the libraries below a crate. It says each ten seconds that it goes on."""
    with Waiting(lambda seconds: f"check: looking for the libraries below {name}, {seconds:.0f} s"):
        return Libraries(rt, name, folder).give_all()


class Proofs:
    """What `rt ci` prints of libraries that it proves: a line of each, and all of one that is not proved."""

    def __init__(self, names: list[str]):
        self.left, self.many = list(names), len(names)
        self.lines: list[str] = []

    def hear(self, line: str) -> None:
        """Takes a line."""
        told = proofs.PROVED.match(line)
        if told and told[1] in self.left:
            self.left.remove(told[1])
            say(f"{told[1]} is {'kept' if 'is kept' in line else 'proved'}: {self.many - len(self.left)} of {self.many}")
        elif line.startswith("== "):
            self.lines.clear()
        elif "NOT PROVED" in line or line.startswith("rt: FAILED"):
            print(*self.lines, line, sep="\n", flush=True)
            self.lines.clear()
        else:
            self.lines.append(line)

    def wait(self, seconds: float) -> None:
        """Says what is left."""
        names = ", ".join(self.left[:4])
        say(f"{len(self.left)} of {self.many} libraries are left to prove, after {seconds:.0f} s: {names}")


def prove_libraries(missing: list[str], unknown: list[str], folder: str) -> bool:
    """Proves libraries, which keeps them, and where these are others now, those that stand on them: whether they are
    proved."""
    say(f"not kept on this machine, and so proved first: {', '.join(missing)}")
    if unknown:
        say(f"where their clauses and types are others now, those that stand on them too: {', '.join(unknown)}")
    names = missing + unknown
    told = Proofs(names)
    # with fewer of them than processors each has several
    many = {"RT_JOBS": str(proofs.crates_at_once())} if len(names) > len(os.sched_getaffinity(0)) else {}
    if hear(["rt", "ci", *names], folder, told.hear, told.wait, **many) == 0:
        return True
    print(*told.lines, sep="\n", flush=True)
    return False


def bring_libraries(name: str, folder: str) -> bool:
    """Puts the libraries below a crate where its check looks for them: whether all are there."""
    rt = current.load_kit(*INTERNALS)
    if rt is None:
        say(f"the kit's `rt` has no {' or '.join(INTERNALS[:2])}, so `rt check` itself proves each library below {name}")
        return True
    began = time.monotonic()
    missing, unknown = look_for(rt, name, folder)
    if missing and prove_libraries(missing, unknown, folder):
        missing = look_for(rt, name, folder)[0]
        if missing:
            say(f"proved, and not kept (is the disk full?): {', '.join(missing)}; so `rt check` proves them again")
    elif missing:
        say(f"a library below {name} is not proved, so nothing is said of {name}")
        return False
    say(f"the libraries below {name} are there, after {time.monotonic() - began:.0f} s")
    return True


def stand_above(name: str) -> list[str]:
    """The crates of the product that stand on one."""
    return [other for other in repository.product() if other != name and name in repository.with_all_below([other])]


def tell_above(name: str) -> None:
    """Says what a change of a crate has proved again."""
    above = stand_above(name)
    whole = {crate: proofs.Progress.lines_of(crate, repository.TOP) for crate in repository.product()}
    share = sum(whole[crate] for crate in above) / sum(whole.values())
    if not above:
        say(f"no crate stands on {name}")
        return
    say(f"a change of a clause, a definition or a type of {name} has the {len(above)} crates above it proved again, "
        f"which have {share:.0%} of all lines: {', '.join(above)}")
    say("a change of a body, a proof or a comment that leaves the number of lines has none of them proved again")


def run_on_crate(name: str, words: list[str], what: str) -> int:
    """Runs a command of `rt` in the copy, over the libraries that are kept: its status."""
    os.makedirs(FOLDER, exist_ok=True)
    with open(f"{FOLDER}.lock", "w", encoding="ascii") as lock:
        try:
            fcntl.flock(lock, fcntl.LOCK_EX | fcntl.LOCK_NB)
        except BlockingIOError:
            say("another call works in out/crates; this one waits for it")
            fcntl.flock(lock, fcntl.LOCK_EX)
        say(f"{what}, in out/crates")
        with Waiting(lambda seconds: f"check: copying what changed, {seconds:.0f} s"):
            changed = copy_crates(name, repository.TOP, FOLDER)
        say(f"{changed} of the files there were others at the last call")
        if not bring_libraries(name, FOLDER):
            return 1
        at = FOLDER if words[0] == "must-fail" else os.path.join(FOLDER, "crates", name)
        return hear(["rt", *words], at, lambda line: print(line, flush=True),
                    lambda seconds: say(f"`rt {words[0]}` goes on, {seconds:.0f} s"))


def check(name: str, function: str) -> int:
    """Checks a crate, or one function of it: the exit status."""
    function = function.removeprefix(f"{name}::")
    what = f"{name}::{function}" if function else name
    began = time.monotonic()
    status = run_on_crate(name, ["check", *(["--only", function] if function else [])], f"{what} is checked")
    verdict = {0: "is proved", 1: "is not proved"}.get(status, "was not judged")
    say(f"{what} {verdict}, after {time.monotonic() - began:.0f} s; for the gate this counts for nothing")
    if status == 0:
        tell_above(name)
    return status


def try_edits(name: str) -> int:
    """Tries the edits of a crate, over what checks of it left: the exit status."""
    status = run_on_crate(name, ["must-fail", name], f"the edits of {name} are tried")
    say(f"{'each edit is refused' if status == 0 else 'not each edit is refused'}; for the gate this counts for nothing")
    return status


def takes(words: list[str]) -> bool:
    """Whether these words can stand after the name of a crate."""
    return len(words) <= 1 and (words[:1] in ([], ["--above"], ["--edits"]) or not words[0].startswith("-"))


def run(name: str, word: str = "") -> int:
    """Does what `./check --crate` is called for: the exit status."""
    match word:
        case "--above":
            tell_above(name)
            return 0
        case "--edits":
            return try_edits(name)
        case _:
            return check(name, word)
