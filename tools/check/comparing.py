"""What parts of the check share: what came of them, and how a difference is told."""

import difflib
import re
import sys
from collections.abc import Iterable
from typing import NamedTuple


class Outcome(NamedTuple):
    """What came of a part: how many rows passed and how many failed, and what it left out and why. What is left out for
    want of a program that Debian has is a failure of a strict run; what this machine cannot have is none of any run."""

    passed: int
    failed: int
    left_out: tuple[str, ...] = ()
    impossible: tuple[str, ...] = ()


PASSED, FAILED = Outcome(1, 0), Outcome(0, 1)

# the last line of a script, and its lines on what it left out
CLOSING = re.compile(r"^(\d+) passed, (\d+) failed$")
LEFT_OUT = re.compile(r"^left out: (.*)$", re.M)
IMPOSSIBLE = re.compile(r"^not possible here: (.*)$", re.M)


def lines_of(found: object) -> list[str]:
    """The lines of what is compared: of octets or of a text as they stand, of anything else as it is printed."""
    text = found.decode(errors="backslashreplace") if isinstance(found, bytes) else str(found)
    return text.splitlines(keepends=True)


def compared(name: str, found: object, expected: object) -> Outcome:
    """Whether both are the same. What differs is told line by line."""
    if found == expected:
        return PASSED
    print(f"{name} differs:")
    sys.stdout.writelines(f"{line.rstrip(chr(10))}\n" for line in difflib.unified_diff(
        lines_of(expected), lines_of(found), "expected", "found"
    ))
    return FAILED


def total(outcomes: Iterable[Outcome]) -> Outcome:
    """What came of all of them."""
    found = list(outcomes)
    return Outcome(
        sum(one.passed for one in found), sum(one.failed for one in found),
        tuple(what for one in found for what in one.left_out), tuple(what for one in found for what in one.impossible),
    )


def told_by(printed: str, status: int) -> Outcome:
    """What came of a script, by what it prints. One that does not say at its end what passed has failed."""
    told = CLOSING.match((printed.splitlines() or [""])[-1])
    passed, failed = (int(told[1]), int(told[2])) if told else (0, 1)
    if status != 0:
        failed = max(failed, 1)
    return Outcome(passed, failed, tuple(LEFT_OUT.findall(printed)), tuple(IMPOSSIBLE.findall(printed)))
