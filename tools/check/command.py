"""Checks the repository, and says what each part took, what failed and what was left out.

./check               the layout, every test, row and example, and the parts on programs that take a minute or less, by
                      builds that are not proved, in a few minutes; some tests make fewer turns than in the gate
./check --crate NAME [module::function]
                      one crate proved, or one function of it: in some two minutes where this machine has proved the
                      libraries below it before (tools/build/quick.py). It counts for nothing in the gate
./check --crate NAME --edits | --above
                      the edits of one crate; or which crates a change of it has proved again
./check --proofs      the proofs: `rt ci` proves all crates and tries the edits whose turn it is (tools/check/edits.py), and
                      builds each program by two compilers; then every test runs in full, and every part on the proved
                      programs
./check --edits [CRATE ..]
                      the proofs and every edit, or those of some crates, and no part. Where all are refused, it is noted in
                      tools/edits-tried
./check --tests NAME  the tests of one crate of tests, and what its program prints
./check --only PART   one part, by builds that are not proved; with --proofs before it, on the proved programs

With --strict, a part that is left out for want of a program fails. With --keep-counts, and without --proofs, it writes to
tools/counts how many rows each part had: a later run in which a part has fewer fails.

The parts: {parts}.
The crates of tests: {tests}.
"""

import os
import shutil
import subprocess
import sys
import tempfile
from collections.abc import Callable, Iterable, Iterator
from concurrent.futures import ThreadPoolExecutor
from functools import partial
from typing import NoReturn

from tools.build import proofs, quick, repository, unproved
from tools.check import comparing, documents, edits, linted, parts, tests
from tools.check.comparing import FAILED, PASSED, Outcome
from tools.check.running import FLAGS, Flags, Part, report, say, timed

# parts that are no script
OTHER_PARTS = ("layout", "tests", "proofs")

# a part with all that it is given
Work = Callable[[], Part]


def layout_of(folder: str) -> Outcome:
    """Whether each file of a crate is as `rt fmt` lays it out. `rt ci` wants that too, and looks at a crate only when its
    turn comes."""
    run = subprocess.run(["rt", "fmt"], cwd=folder, check=False, stdout=subprocess.PIPE, stderr=subprocess.STDOUT)
    if run.returncode == 0 and b"formatted" not in run.stdout:
        return PASSED
    print(f"{os.path.basename(folder)}: `rt fmt` would change it, or fails:\n{run.stdout.decode(errors='replace')}")
    return FAILED


def layout() -> Outcome:
    """The same of all crates, on a copy; whether what documents name is there; and what linters say of Python."""
    with tempfile.TemporaryDirectory() as top, ThreadPoolExecutor(len(os.sched_getaffinity(0))) as pool:
        names = repository.lay_out(top, repository.crates())
        laid_out = list(pool.map(layout_of, [os.path.join(top, "crates", name) for name in names]))
    return comparing.total([*laid_out, documents.check(), linted.check()])


def build(name: str) -> Outcome:
    """The unproved build of a program: whether it compiles."""
    try:
        unproved.built(name)
    except unproved.BuildFault as fault:
        print(fault)
        return FAILED
    return PASSED


def run_together(works: list[Work]) -> list[Part]:
    """Works side by side."""
    # two more than there are processors, since what compiles waits for files at first, and what links for one another
    with ThreadPoolExecutor(len(os.sched_getaffinity(0)) + 2) as pool:
        running = [pool.submit(work) for work in works]
        try:
            return [work.result() for work in running]
        except KeyboardInterrupt:
            for run in tests.RUNNING:
                run.terminate()
            raise


def works_of_tests(crates: str) -> Iterator[Work]:
    """A run of each crate of tests, the largest first."""
    for crate in tests.crates_of_tests(crates):
        name = f"tests of {', '.join([crate, *tests.TRIED_WITH.get(crate, [])])}"
        yield partial(timed, name, tests.try_tests, crates, crate)


def short_tests() -> list[Part]:
    """Every test in a short run, what programs print, and the builds of all programs, first what takes longest."""
    with tempfile.TemporaryDirectory() as top:
        works: list[Work] = [partial(timed, "a build of radlimitd", build, "radlimitd")]
        works += works_of_tests(tests.lay_out(top, is_short=True))
        works += [partial(timed, f"a build of {name}", build, name) for name in parts.PROGRAMS if name != "radlimitd"]
        works += [partial(timed, f"what {name} prints", tests.try_program, name) for name in tests.printing_programs()]
        return run_together([*works, partial(timed, "layout", layout)])


def whole_tests() -> list[Part]:
    """Every test in a whole run."""
    with tempfile.TemporaryDirectory() as top:
        return run_together(list(works_of_tests(tests.lay_out(top, is_short=False))))


def failed(found: list[Part]) -> bool:
    """Whether one of some parts failed."""
    return any(part.outcome.failed for part in found)


def unproved_check(flags: Flags) -> int:
    """The tests, and the parts that take a minute or less, by builds that are not proved."""
    say("check: nothing in this run is proved; `./check --proofs` proves the programs and tries them")
    found, left = short_tests(), list(parts.SHORT)
    if not failed(found):
        found, left = found + parts.run_short(), []
    return report(found, flags, left)


def prove(names: list[str]) -> Outcome:
    """Proves all crates, and tries the edits of some."""
    left = [name for name in edits.with_edits() if name not in names]
    say(f"check: edits are tried of {', '.join(names)}; not in this run: {', '.join(left) or 'none'}")
    return Outcome(*proofs.prove(list(repository.product()), names))


def proved_check(flags: Flags) -> int:
    """The proofs, and every part on the proved programs: nothing is proved of files in another layout, and nothing is run
    on programs that were not proved."""
    found, left = [timed("layout", layout)], ["proofs", "tests", *parts.PARTS]
    if not failed(found):
        found, left = [*found, timed("proofs", prove, edits.in_turn(edits.today()))], left[1:]
    if not failed(found):
        found, left = found + whole_tests() + parts.run_proved(), []
    return report(found, flags, left)


def edits_check(flags: Flags, names: list[str]) -> int:
    """The proofs and every edit of some crates."""
    digests = {name: edits.digest(name) for name in names}
    status = report([timed("proofs", prove, names)], flags)
    if status == 0:
        edits.note(digests)
        say("check: noted in tools/edits-tried")
    return status


def only(flags: Flags, name: str) -> int:
    """One part."""
    match name:
        case "layout":
            return report([timed("layout", layout)], flags)
        case "tests":
            return report(short_tests() if flags.is_unproved else whole_tests(), flags)
        case "proofs":
            return report([timed("proofs", prove, edits.in_turn(edits.today()))], flags)
    return report([timed(name, parts.run, name)], flags)


def wrong(text: str) -> NoReturn:
    """Ends the run, since its words are wrong."""
    print(f"check: {text}", file=sys.stderr)
    sys.exit(2)


def known(kind: str, name: str, names: Iterable[str]) -> str:
    """A name that is one of some names."""
    if name not in names:
        wrong(f"there is no {kind} {name!r}, but {', '.join(names)}")
    return name


def help_text() -> str:
    """What `--help` prints."""
    assert __doc__ is not None
    names = [name for name in repository.tests() if tests.has_tests(name)] + list(repository.measures())
    return __doc__.format(parts=", ".join((*OTHER_PARTS, *parts.PARTS)), tests=", ".join(names))


def run(flags: Flags, words: list[str]) -> int:
    """What the words of the command line ask for, without those that are said of any run."""
    match words:
        case []:
            return unproved_check(flags) if flags.is_unproved else proved_check(flags)
        case ["--edits", *names] if flags.is_unproved:
            known_names = [known("crate with edits", name, edits.with_edits()) for name in names]
            return edits_check(flags, known_names or edits.with_edits())
        case ["--crate", name, *rest] if flags.is_unproved and quick.takes(rest):
            return quick.run(known("crate", name, repository.product()), *rest)
        case ["--tests", name] if flags.is_unproved:
            known("crate of tests", name, repository.tests() | repository.measures())
            return report([timed(f"tests of {name} alone", tests.try_alone, name)], flags)
        case ["--only", name]:
            return only(flags, known("part", name, (*OTHER_PARTS, *parts.PARTS)))
    wrong(f"{' '.join(words)!r} cannot be asked for so; ./check --help says what can")


def main() -> NoReturn:
    words = sys.argv[1:]
    if words in (["-h"], ["--help"]):
        print(help_text(), end="")
        sys.exit(0)
    if not shutil.which("rt"):
        sys.exit("check: the command `rt` of the Rattle kit is not on the PATH")
    flags = Flags("--proofs" not in words, "--strict" in words, "--keep-counts" in words)
    if flags.keeps_counts and not flags.is_unproved:
        wrong("--keep-counts is for builds that are not proved: on proved programs parts have more rows")
    # scripts take the programs that this run is about, whatever the caller's environment says
    os.environ["PROGRAMS"] = "unproved" if flags.is_unproved else "proved"
    sys.exit(run(flags, [word for word in words if word not in FLAGS]))
