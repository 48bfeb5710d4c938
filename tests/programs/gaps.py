"""Tries `./check` itself: plants gaps in a copy of the repository, and looks whether each is found. Nothing is built.

usage: python3 -m tests.programs.gaps
"""

import ast
import os
import shutil
import subprocess
import sys
import tempfile

from tests.lib import rows
from tools.build.repository import TOP

# what is taken away, and what is written into README.md and at the head of a crate: what `documents` says of each
TAKEN = {
    "docs/radlimit.8": "docs/radlimit.8 is not there",
    "docs/ASSURANCE.md": "docs/ASSURANCE.md is not there",
    "examples/late-start.script": "a link to examples/late-start.script, which is not there",
}
WRITTEN = {
    "docs/OPERATION.md has it.": "there is no docs/OPERATION.md",
    "OPERATION.md has it.": "there is no document OPERATION.md",
    "It is in [a document](docs/NOWHERE.md).": "a link to docs/NOWHERE.md, which is not there",
    "It is in [a section](docs/OPERATING.md#nowhere).": "a link to docs/OPERATING.md#nowhere: there is no such heading",
    "It is in radlimits(8).": "there is no manual page radlimits(8)",
    "`bench/nothing.py` measures it.": "there is no bench/nothing.py",
    "It is dropped as `drop_nothing`.": "`drop_nothing` is no cause of crates/rld_counts/src/cause.rt",
}
HEAD = "crates/rsl_wire/src/lib.rt"
CITED = {
    "A packet is read (`read`: `funod`).": "no clause `funod` of read",
    "A draft is filled (`Draft::pull`; `read`: `found`).": "no call `Draft::pull`",
    "That is `build`: `bulit`, and no more.": "no clause `bulit` of build",
    "A `Packte` is in `specs/Packte.antt`.": "nothing is called `specs/Packte.antt`",
    "Read docs/PROMISE.md first.": "there is no docs/PROMISE.md",
}
HEADLESS = "crates/rld_text/src/lib.rt"

CHECKS = "from tools.check import documents; print(documents.check().failed)"
DIGEST = "from tools.check import edits; print(edits.digest('rsl_steps'))"

# what is written behind a file of a crate with edits, and whether its digest is another one then
BEHIND = (
    ("src/decision.rt", "\n// a comment\n", False),
    ("specs/Run.antt", "\n-- a comment\n", False),
    ("src/decision.rt", "const MORE: u8 = 1; // a comment\n", True),
    ("src/decision.rt", "// Makes a move in one shard. Where memory is refused nothing has changed.\n", False),
    ("src/decision.rt", "/// Makes a move in one shard. Where memory is refused nothing has changed.\n", True),
    ("must-fail/one_ring_for_a_shard.edit", "\n", True),
)


class Copy:
    """A copy of the repository, in which nothing is built, and a folder of programs that has little in it."""

    def __init__(self, folder):
        self.top, self.programs = os.path.join(folder, "copy"), os.path.join(folder, "programs")
        shutil.copytree(TOP, self.top, ignore=shutil.ignore_patterns("out", ".git", "__pycache__"), symlinks=True)
        os.mkdir(self.programs)
        os.symlink(sys.executable, os.path.join(self.programs, "python3"))
        self.write(os.path.join(self.programs, "rt"), "#!/bin/sh\nexit 1\n")
        os.chmod(os.path.join(self.programs, "rt"), 0o755)

    def write(self, path, text):
        """Writes a file."""
        with open(os.path.join(self.top, path), "w", encoding="utf-8") as file:
            file.write(text)

    def read(self, path):
        """What a file has."""
        with open(os.path.join(self.top, path), encoding="utf-8") as file:
            return file.read()

    def run(self, *words, **environment):
        """A command in the copy: its status, and the lines of both its streams."""
        own = {name: text for name, text in os.environ.items() if name not in ("CI", "PROGRAMS")}
        given = own | {"PATH": self.programs} | environment
        run = subprocess.run(words, cwd=self.top, env=given, capture_output=True, text=True, check=False)
        return run.returncode, run.stdout.splitlines(), run.stderr.splitlines()

    def check(self, *words, **environment):
        """The same of `./check`."""
        return self.run(os.path.join(self.top, "check"), *words, **environment)


def cases_of_words(copy):
    """Help, and wrong words."""
    for word in ("-h", "--help"):
        status, printed, told = copy.check(word)
        yield f"{word}: status and standard error", (status, told), (0, [])
        yield f"{word} names each part", all(part in " ".join(printed) for part in ("streams", "gaps", "layout")), True
    for word, name, kind in (
        ("--only", "stream", "part"), ("--tests", "test_pakcet", "crate of tests"),
        ("--edits", "rsl_wir", "crate with edits"),
    ):
        status, printed, told = copy.check(word, name)
        yield f"{word} {name}: status and standard output", (status, printed), (2, [])
        yield f"{word} {name}: is named", told[0].startswith(f"check: there is no {kind} {name!r}, but "), True
    status, _, told = copy.check("--onyl", "streams")
    wanted = ["check: '--onyl streams' cannot be asked for so; ./check --help says what can"]
    yield "a wrong word", (status, told), (2, wanted)
    wanted = ["check: the command `rt` of the Rattle kit is not on the PATH"]
    yield "no rt", copy.check(PATH=os.path.dirname(sys.executable)), (1, [], wanted)


def cases_of_pythons(copy):
    """The executables in a Python that is too old: they are read, and say so."""
    for name in ("check", "radlimit", "radlimitd"):
        text = copy.read(name)
        yield f"{name} is read by old Pythons", isinstance(ast.parse(text, feature_version=(3, 4)), ast.Module), True
        older = f"import sys; sys.version_info = (3, 9, 2); exec(open({name!r}).read())"
        status, printed, told = copy.run("python3", "-c", older)
        wanted = [f"{name}: this wants Python 3.10 or a later one, and here python3 is 3.9"]
        yield f"{name} in Python 3.9", (status, printed, told), (1, [], wanted)


def cases_of_parts(copy):
    """A part that passes, one that fails, one that is left out, and one with fewer rows than were kept."""
    status, printed, _ = copy.check("--only", "monitoring")
    count = int(printed[-1].split()[0])
    found = status, printed[0], printed[-1]
    yield "a part that passes", found, (0, "check: monitoring begins", f"{count} passed, 0 failed")
    lines = [line.split()[:2] for line in printed]
    yield "its line, as it ends and at the end", lines.count(["monitoring", str(count)]), 2
    for more in ({}, {"CI": ""}, {"CI": "false"}, {"CI": "true"}):
        found = copy.check("--only", "radsecproxy", **more)
        yield f"a part that is left out, {more}", (found[0], found[1][-2:]), (0, [
            "left out: radsecproxy (no radsecproxy here)", "0 passed, 0 failed, 1 skipped"])
        found = copy.check("--strict", "--only", "radsecproxy", **more)
        yield f"the same in a strict run, {more}", (found[0], found[1][-1]), (1, "0 passed, 1 failed")
    copy.write("tools/counts", f"{count + 1} monitoring\n")
    status, printed, _ = copy.check("--only", "monitoring")
    yield "fewer rows than were kept", (status, printed[-3:]), (1, [
        f"check: monitoring: {count} rows, and {count + 1} in tools/counts, which --keep-counts writes anew",
        "failed: monitoring", f"{count} passed, 1 failed"])
    yield "they are kept anew", copy.check("--keep-counts", "--only", "monitoring")[0], 0
    yield "as many as there are", copy.read("tools/counts"), f"{count} monitoring\n"
    yield "not on proved programs", copy.check("--proofs", "--keep-counts", "--only", "monitoring")[0], 2
    os.remove(os.path.join(copy.top, "examples/prometheus-rules.yml"))
    status, printed, _ = copy.check("--only", "monitoring")
    yield "a part that fails is named", (status, printed[-2:]), (1, ["failed: monitoring", "0 passed, 1 failed"])


def cases_of_programs(copy):
    """What the caller's environment says of programs counts for nothing: on proved programs a part is not tried unproved."""
    status, printed, _ = copy.check("--proofs", "--only", "split", PROGRAMS="unproved")
    is_told = any("is not there: `./radlimit prove` builds it" in line for line in printed)
    yield "no proved program is there", (status, is_told), (1, True)


def cases_of_tests(copy):
    """Crates of tests that try nothing."""
    status, printed, _ = copy.check("--tests", "test_rows")
    yield "a crate without a test", (status, "tests of test_rows alone: nothing was tried" in printed), (1, True)
    os.remove(os.path.join(copy.top, "tests/unit/test_counts/stdout"))
    status, printed, _ = copy.check("--tests", "test_counts")
    told = "test_counts: its crate has no file stdout, which says what it prints"
    yield "no file of what is expected", (status, told in printed, printed[-1]), (1, True, "0 passed, 1 failed")


def cases_of_documents(copy):
    """What documents name and is not there. Before anything is planted all is."""
    yield "nothing is planted", copy.run("python3", "-c", CHECKS), (0, ["0"], [])
    for path in TAKEN:
        os.remove(os.path.join(copy.top, path))
    copy.write("README.md", copy.read("README.md") + "\n".join(["", *WRITTEN, ""]))
    copy.write(HEAD, "".join(f"//! {line}\n" for line in CITED) + copy.read(HEAD))
    copy.write(HEADLESS, copy.read(HEADLESS).replace("//!", "//"))
    _, printed, _ = copy.run("python3", "-c", CHECKS)
    headless = f"{HEADLESS} has no head that says what the crate promises"
    for fault in (*TAKEN.values(), *WRITTEN.values(), *CITED.values(), headless):
        yield f"found: {fault}", any(line.endswith(fault) for line in printed), True


def cases_of_digests(copy):
    """Comments count for nothing in what edits were tried over, but for those with a text that an edit names."""
    for path, text, is_counted in BEHIND:
        path, before = os.path.join("crates/rsl_steps", path), copy.run("python3", "-c", DIGEST)
        copy.write(path, copy.read(path) + text)
        is_other = copy.run("python3", "-c", DIGEST) != before
        yield f"{text.strip()!r} behind {path} counts", is_other, is_counted


def cases():
    """All of it: digests and documents first, as the others take files away."""
    with tempfile.TemporaryDirectory() as folder:
        copy = Copy(folder)
        for some in (
            cases_of_digests, cases_of_documents, cases_of_words, cases_of_pythons, cases_of_parts, cases_of_programs,
            cases_of_tests,
        ):
            yield from some(copy)


if __name__ == "__main__":
    if sys.argv[1:]:
        sys.exit(__doc__)
    rows.verdict(cases())
