"""How parts of the check are run, and what is said of them: a line when one begins, one when it ends, and at the end of a
run what failed and what was left out."""

import time
from collections.abc import Callable, Iterable
from typing import NamedTuple

from tools.check import counts
from tools.check.comparing import Outcome, total


class Part(NamedTuple):
    """A part that was run: its name, what came of it, and the seconds that it took."""

    name: str
    outcome: Outcome
    seconds: float


class Flags(NamedTuple):
    """What is said of any run: that it is by builds that are not proved, that it fails where something is left out for
    want of a program, and that it writes how many rows each part had."""

    is_unproved: bool
    is_strict: bool
    keeps_counts: bool


FLAGS = ("--proofs", "--strict", "--keep-counts")


def say(line: str) -> None:
    """One line, at once."""
    print(line, flush=True)


def line_of(part: Part) -> str:
    """What a part took, and what passed and failed."""
    left_out = len(part.outcome.left_out) + len(part.outcome.impossible)
    more = f", {left_out} left out" if left_out else ""
    words = f"{part.outcome.passed:6} passed,{part.outcome.failed:4} failed,{part.seconds / 60:7.1f} minutes{more}"
    return f"{part.name:46}{words}"


def timed(name: str, work: Callable[..., Outcome], *given: object) -> Part:
    """Runs a part, and says when it begins and ends."""
    say(f"check: {name} begins")
    began = time.monotonic()
    outcome = work(*given)
    if outcome == Outcome(0, 0):
        say(f"{name}: nothing was tried")
        outcome = Outcome(0, 1)
    part = Part(name, outcome, time.monotonic() - began)
    say(line_of(part))
    return part


def report(found: list[Part], flags: Flags, left: Iterable[str] = ()) -> int:
    """Prints what each part took, then what failed and what was left out, by name, and at last numbers alone: the exit
    status. `left` are parts that have not begun, since an earlier one failed."""
    whole = total(part.outcome for part in found)
    fewer = [] if flags.keeps_counts else [fault for part in found if (fault := counts.fault(part.name, part.outcome))]
    failed = [part.name for part in found if part.outcome.failed]
    failed += [fault.partition(":")[0] for fault in fewer] + (list(whole.left_out) if flags.is_strict else [])
    print()
    for part in found:
        print(line_of(part))
    for fault in fewer:
        print(f"check: {fault}")
    named = (
        ("failed", failed), ("not run, since others failed", list(left)), ("left out", list(whole.left_out)),
        ("not possible here", list(whole.impossible)),
    )
    for title, what in named:
        if what:
            print(f"{title}: {'; '.join(what)}")
    wrong = whole.failed + len(fewer) + (len(whole.left_out) if flags.is_strict else 0)
    skipped = len(whole.impossible) + (0 if flags.is_strict else len(whole.left_out))
    say(f"{whole.passed} passed, {wrong} failed" + (f", {skipped} skipped" if skipped else ""))
    if flags.keeps_counts:
        counts.keep({part.name: part.outcome for part in found})
    return 1 if wrong else 0
