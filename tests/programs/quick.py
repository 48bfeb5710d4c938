#!/usr/bin/env python3
"""Tries `./check --crate` on a repository of three crates, with a stand-in for `rt`, which writes down what it is asked to
prove: with nothing kept, with a library that is kept, with one that changed, and with an `rt` that has nothing of what is
taken of the kit's; that the copy holds what the clone holds, and only changed files are written; and what is said meanwhile.

usage: python3 -m tests.programs.quick
"""

import os
import shutil
import subprocess
import sys
import tempfile
from collections.abc import Iterator

from tests.lib import rows
from tools.build.repository import TOP

LISTS = "low:\nmid: low\nhigh: mid\n"

# a stand-in for `rt`, as Python and as a command: it notes its words, and keeps the libraries that it proves by what stands
# in the file src/lib.rt of each
STAND_IN = """#!/usr/bin/env python3
import os, sys, time

KEPT, NOTES = os.environ["KEPT"], os.environ["NOTES"]

class Crate:
    def __init__(self, folder, deps):
        self.folder, self.name, self.deps = folder, os.path.basename(folder), deps
        with open(f"{folder}/src/lib.rt") as file:
            self.text = file.read()
    def below(self):
        return [low for dep in self.deps for low in (*dep.below(), dep)]
    def stamp(self):
        return self.text + "".join(low.text for low in self.below())
    def is_built(self):
        return os.path.isfile(f"{self.folder}/out/rlib/stamp") and open(f"{self.folder}/out/rlib/stamp").read() == self.stamp()

class Kept:
    def __init__(self, crates):
        self.built = {}
    def key(self, crate):
        return f"{crate.name}-{crate.text.strip()}-{len([self.built[low.name] for low in crate.below()])}"
    def is_built(self, crate):
        self.built[crate.name] = open(f"{crate.folder}/out/rlib/made").read()
    def give(self, crate, tests, key):
        os.makedirs(f"{crate.folder}/out/rlib")
        with open(f"{crate.folder}/out/rlib/made", "w") as file:
            file.write(key)
        return os.path.exists(f"{KEPT}/{key}")

def handles_of(top):
    return open(f"{top}/HANDLES").read()

def crates_of(top):
    found = []
    for line in open(f"{top}/crates.txt"):
        name, _, words = line.partition(":")
        found.append(Crate(f"{top}/crates/{name}", [crate for crate in found if crate.name in words.split()]))
    return found

def note(*words):
    with open(NOTES, "a") as file:
        print(*words, file=file)

def main(words):
    if words == ["version"]:
        print("rattle-kit-stand-in")
        return 0
    note(*words)
    if words[0] == "ci":
        for at, crate in enumerate(it for it in crates_of(os.getcwd()) if it.name in words):
            print("== " + crate.name)
            if "wrong" in crate.text:
                print(f"an error of {crate.name}")
                print(f"rt: {crate.name} NOT PROVED", flush=True)
                return 1
            open(f"{KEPT}/{crate.name}-{crate.text.strip()}-{len(crate.below())}", "w").close()
            print(f"rt: {crate.name} proved", flush=True)
        return 0
    time.sleep(float(os.environ.get("SLEEPS", "0")))
    print("fn high::f: proved")
    return int(os.environ.get("FAILS", "0"))

if __name__ == "__main__":
    sys.exit(main(sys.argv[1:]))
"""
# one that is no Python
PLAIN = """#!/bin/sh
[ "$1" != version ] || exec echo rattle-kit-stand-in
echo "$@" >> "$NOTES"
"""


class Clone:
    """A repository of three crates, and a stand-in for `rt`."""

    def __init__(self, folder: str):
        self.folder, self.top = folder, os.path.join(folder, "clone")
        self.notes, self.copy = os.path.join(folder, "notes"), os.path.join(self.top, "out", "crates")
        shutil.copytree(os.path.join(TOP, "tools"), os.path.join(self.top, "tools"))
        shutil.copy(os.path.join(TOP, "check"), self.top)
        for path, text in (("crates.txt", LISTS), ("HANDLES", "Handles allowed: none.\n"),
                           ("tests/unit/crates.txt", ""), ("bench/crates.txt", "")):
            self.write(path, text)
        for name in ("low", "mid", "high"):
            self.write(f"crates/{name}/src/lib.rt", f"1 of {name}\n")
        self.write("crates/high/proofs/old.antt", "a proof\n")
        self.write("crates/high/must-fail/one.edit", "an edit\n")
        os.mkdir(os.path.join(folder, "kept"))
        for name, text in (("rt", STAND_IN), ("plain", PLAIN)):
            os.mkdir(os.path.join(folder, name))
            path = os.path.join(folder, name, "rt")
            with open(path, "w", encoding="ascii") as file:
                file.write(text)
            os.chmod(path, 0o755)

    def write(self, path: str, text: str) -> None:
        """Writes a file of the clone."""
        path = os.path.join(self.top, path)
        os.makedirs(os.path.dirname(path), exist_ok=True)
        with open(path, "w", encoding="ascii") as file:
            file.write(text)

    def check(self, *words: str, first: str = "rt", **variables: str) -> tuple[int, str, list[str]]:
        """Runs `./check --crate`: its status, what it prints, and what `rt` was asked."""
        given = {"PATH": os.path.join(self.folder, first) + os.pathsep + os.environ["PATH"], "NOTES": self.notes}
        run = subprocess.run(
            [os.path.join(self.top, "check"), "--crate", *words], capture_output=True, text=True, check=False,
            env=os.environ | given | {"KEPT": os.path.join(self.folder, "kept")} | variables,
        )
        asked = []
        if os.path.exists(self.notes):
            with open(self.notes, encoding="ascii") as file:
                asked = file.read().splitlines()
            os.remove(self.notes)
        return run.returncode, run.stdout + run.stderr, asked

    def files(self) -> dict[str, int]:
        """The files of the copy that come from the clone, and when each was written."""
        found = {}
        for at, folders, names in os.walk(self.copy):
            folders[:] = [name for name in folders if name != "out"]
            for path in (os.path.join(at, name) for name in names):
                found[os.path.relpath(path, self.copy)] = os.stat(path).st_mtime_ns
        return found


def cases_of_kept(clone: Clone) -> Iterator[tuple[str, object, object]]:
    """What is proved first, and what is taken."""
    status, printed, asked = clone.check("high", "high::f")
    yield "nothing is kept", (status, asked), (0, ["ci low mid", "check --only f"])
    yield "it says so", "not kept on this machine, and so proved first: low\n" in printed, True
    status, printed, asked = clone.check("high", "f")
    yield "both are kept", (status, asked, "not kept" in printed), (0, ["check --only f"], False)
    clone.write("crates/low/src/lib.rt", "2 of low\n")
    status, printed, asked = clone.check("high")
    yield "the lowest changed", (status, asked), (0, ["ci low mid", "check"])
    shutil.rmtree(os.path.join(clone.copy, "crates", "mid", "out"))
    yield "a library that is kept is taken again", clone.check("high")[2], ["check"]
    clone.write("crates/mid/src/lib.rt", "wrong\n")
    status, printed, asked = clone.check("high")
    yield "one below is wrong", (status, asked, "an error of mid\n" in printed), (1, ["ci mid"], True)
    clone.write("crates/mid/src/lib.rt", "1 of mid\n")
    yield "it is right again", clone.check("high")[2], ["check"]


def cases_of_words(clone: Clone) -> Iterator[tuple[str, object, object]]:
    """What is said, and what else can be asked."""
    yield "the edits", clone.check("high", "--edits")[2], ["must-fail high"]
    status, printed, asked = clone.check("low", "--above")
    yield "what stands above", (status, asked, "the 2 crates above it" in printed, "mid, high" in printed), (0, [], True, True)
    status, printed, _ = clone.check("high", FAILS="1")
    yield "not proved", (status, "high is not proved, after" in printed), (1, True)
    status, printed, _ = clone.check("high", FAILS="2")
    yield "not judged", (status, "high was not judged, after" in printed), (2, True)
    _, printed, _ = clone.check("high", SLEEPS="21")
    yield "a line each ten seconds", printed.count("`rt check` goes on") >= 1, True
    yield "it counts for nothing", "for the gate this counts for nothing" in printed, True
    yield "no such crate", clone.check("higher")[::2], (2, [])
    yield "no such word", clone.check("high", "--below")[::2], (2, [])
    status, printed, asked = clone.check("high", "f", first="plain")
    told = "the kit's `rt` has no Kept or Crate, so `rt check` itself proves each library below high\n"
    yield "another kit", (status, asked, told in printed), (0, ["check --only f"], True)


def cases_of_files(clone: Clone) -> Iterator[tuple[str, object, object]]:
    """What the copy holds."""
    clone.check("high")
    before = clone.files()
    yield "the copy", sorted(before), [
        "HANDLES", "crates.txt", "crates/high/must-fail/one.edit", "crates/high/proofs/old.antt",
        *(f"crates/{name}/src/lib.rt" for name in ("high", "low", "mid")),
    ]
    os.remove(os.path.join(clone.top, "crates/high/proofs/old.antt"))
    clone.write("crates/high/src/lib.rt", "2 of high\n")
    clone.write("crates/high/specs/Lib.antt", "a definition\n")
    clone.check("high")
    after = clone.files()
    yield "a file that went away", before.keys() - after.keys(), {"crates/high/proofs/old.antt"}
    yield "a new one", after.keys() - before.keys(), {"crates/high/specs/Lib.antt"}
    written = {path for path in before.keys() & after.keys() if before[path] != after[path]}
    yield "what was written", written, {"crates/high/src/lib.rt"}
    clone.check("mid")
    yield "the edits of another crate alone", [path for path in clone.files() if "must-fail" in path], []


def cases() -> Iterator[tuple[str, object, object]]:
    """All of it."""
    with tempfile.TemporaryDirectory() as folder:
        clone = Clone(folder)
        for some in (cases_of_kept, cases_of_words, cases_of_files):
            yield from some(clone)


if __name__ == "__main__":
    if sys.argv[1:]:
        sys.exit(__doc__)
    rows.verdict(cases())
