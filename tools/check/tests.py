"""The tests, by builds that are not proved: those in functions, and the programs that print what calls answer."""

import os
import re
import shutil
import subprocess
import sys
import tempfile
from collections.abc import Iterator

from tools.build import repository, unproved
from tools.check import comparing
from tools.check.comparing import FAILED, Outcome

# crates of tests that are tried as one, since each try compiles all that stands below: a crate, and those whose modules
# it takes too. No two of their modules have one name.
TRIED_WITH = {
    "test_packet": ["test_rule", "test_ask"],
    "test_server": ["test_service"],
    "test_library": ["test_store"],
    "test_turn": ["test_spelling", "test_config", "test_status", "test_lives"],
}

# a constant of a test, and after it the value that it has in a short run
QUICK = re.compile(r"^(.*const \w+: \w+ =) [^;]*; // quick: (\w+)$", re.M)

# the most seconds of a run of tests
TEST_SECONDS = 600
NOBODY = 65534
TRIED = re.compile(r"^test result: .* (\d+) passed; (\d+) failed", re.M)

# the modules of a crate of tests
MODULES = re.compile(r"^(?:#\[cfg\(test\)\]\n)?mod \w+;\n", re.M)

# the runs of `rt try`, which an interrupt has to end
RUNNING: list[subprocess.Popen[str]] = []


def join(crates: str, crate: str, others: list[str]) -> None:
    """Moves the modules of crates of tests to another one, in a copy of the crates."""
    taken = os.path.join(crates, crate, "src")
    for other in others:
        given = os.path.join(crates, other, "src")
        with open(os.path.join(given, "lib.rt"), encoding="utf-8") as file:
            modules = MODULES.findall(file.read())
        with open(os.path.join(taken, "lib.rt"), "a", encoding="utf-8") as file:
            file.write("".join(modules))
        for name in set(os.listdir(given)) - {"lib.rt"}:
            if os.path.exists(os.path.join(taken, name)):
                sys.exit(f"check: both {crate} and {other} have {name}, so they can't be tried as one: see TRIED_WITH")
            os.rename(os.path.join(given, name), os.path.join(taken, name))
        shutil.rmtree(os.path.join(crates, other))


def join_lists(lists: dict[str, list[str]]) -> dict[str, list[str]]:
    """The list of crates once some are joined: each stands on what it takes over too."""
    gone = {other for others in TRIED_WITH.values() for other in others}
    joined = {crate: [word for name in (crate, *others) for word in lists[name]] for crate, others in TRIED_WITH.items()}
    return {name: list(dict.fromkeys(joined.get(name, words))) for name, words in lists.items() if name not in gone}


def shorten(folder: str) -> None:
    """Gives the constants of tests the values of a short run."""
    for path in files_of(folder):
        with open(path, encoding="utf-8") as file:
            text = file.read()
        if QUICK.search(text):
            with open(path, "w", encoding="utf-8") as file:
                file.write(QUICK.sub(r"\1 \2;", text))


def lay_out(to: str, is_short: bool) -> str:
    """A copy of the crates, joined, for a short run or a whole one: its folder of crates."""
    repository.lay_out(to, repository.crates())
    crates = os.path.join(to, "crates")
    for crate, others in TRIED_WITH.items():
        join(crates, crate, others)
    repository.write_list(os.path.join(to, "crates.txt"), join_lists(repository.crates()))
    if is_short:
        shorten(crates)
    return crates


def text_of(path: str) -> str:
    """The text of a file."""
    with open(path, encoding="utf-8") as file:
        return file.read()


def files_of(folder: str) -> Iterator[str]:
    """The sources below a folder."""
    for at, _, names in os.walk(folder):
        yield from (os.path.join(at, name) for name in names if name.endswith(".rt"))


def crates_of_tests(crates: str) -> list[str]:
    """The crates that have a test, the largest first."""
    sizes: dict[str, int] = {}
    for crate in os.listdir(crates):
        texts = list(map(text_of, files_of(os.path.join(crates, crate, "src"))))
        if any("#[test]" in text for text in texts):
            sizes[crate] = sum(map(len, texts))
    return sorted(sizes, key=lambda crate: sizes[crate], reverse=True)


def try_tests(crates: str, crate: str) -> Outcome:
    """The tests of a crate."""
    run = unproved.start_try(os.path.join(crates, crate), ["--test", "--steps", "1", "--seconds", str(TEST_SECONDS)])
    RUNNING.append(run)
    printed, told = run.communicate()
    results = TRIED.search(printed)
    if run.returncode != 0 or not results:
        print(f"== {crate}\n{printed}{told}")
    passed, failed = (int(results[1]), int(results[2])) if results else (0, 1)
    return Outcome(passed, max(failed, int(run.returncode != 0)))


def has_tests(name: str) -> bool:
    """Whether a crate of the repository has tests, or a program that prints."""
    src = os.path.join(repository.folder_of(name), "src")
    return repository.has_program(name) or any("#[test]" in text for text in map(text_of, files_of(src)))


def try_alone(name: str) -> Outcome:
    """The tests of one crate of tests, or what its program prints, or both."""
    results = []
    if name in printing_programs():
        results.append(try_program(name))
    with tempfile.TemporaryDirectory() as top:
        repository.lay_out(top, [name])
        if name in crates_of_tests(os.path.join(top, "crates")):
            results.append(try_tests(os.path.join(top, "crates"), name))
    return comparing.total(results)


def printing_programs() -> list[str]:
    """The programs that print what calls answer: each that is a crate of tests or measures."""
    return [name for name in repository.tests() | repository.measures() if repository.has_program(name)]


def octets_of(folder: str, name: str) -> bytes:
    """The octets of a file beside a crate's src/, none where it is not there."""
    path = os.path.join(folder, name)
    if not os.path.isfile(path):
        return b""
    with open(path, "rb") as file:
        return file.read()


def as_nobody(folder: str) -> list[str]:
    """The words that run a program as nobody, who is given a folder, where this is root: root may write to any file."""
    if os.geteuid() != 0:
        return []
    for at, _, names in os.walk(folder):
        for path in (at, *(os.path.join(at, name) for name in names)):
            os.chown(path, NOBODY, NOBODY)
    return ["setpriv", f"--reuid={NOBODY}", f"--regid={NOBODY}", "--clear-groups"]


def try_program(name: str) -> Outcome:
    """Whether a program compiles, ends in time, and prints what its crate has."""
    if not octets_of(repository.folder_of(name), "stdout"):
        print(f"{name}: its crate has no file stdout, which says what it prints")
        return FAILED
    try:
        return compare_printed(name, unproved.built(name))
    except (unproved.BuildFault, subprocess.TimeoutExpired) as fault:
        print(fault)
        return FAILED


def compare_printed(name: str, path: str) -> Outcome:
    """What a program prints, in a folder that has its data/, over what it is given: line by line as its crate has it."""
    folder = repository.folder_of(name)
    words = octets_of(folder, "args").decode().splitlines()
    with tempfile.TemporaryDirectory() as top:
        room, program = os.path.join(top, "room"), shutil.copy(path, top)
        data = os.path.join(folder, "data")
        shutil.copytree(data, room) if os.path.isdir(data) else os.mkdir(room)
        run = subprocess.run(
            [*as_nobody(top), program, *words], input=octets_of(folder, "stdin"), cwd=room, capture_output=True,
            check=False, timeout=TEST_SECONDS,
        )
    expected = octets_of(folder, "stdout")
    wanted = int(octets_of(folder, "status") or b"0")
    results = [comparing.compared(name, run.stdout, expected), comparing.compared(f"{name}: status", run.returncode, wanted)]
    if results[1].failed:
        print(run.stderr.decode(errors="replace"))
    # a line that is as it should be is a thing that passed
    failed = comparing.total(results).failed
    return Outcome(0 if failed else expected.count(b"\n"), failed)
