"""The rows of scripts of tests/programs: what they end with. A row has a name, what was found and what was expected."""

import sys
from collections.abc import Callable, Iterable
from typing import NoReturn

Row = tuple[str, object, object]


def one_that_passes(cases: Callable[[], Iterable[Row]], times: int = 3) -> list[Row]:
    """The rows of cases that look at seconds: of the first time that all pass, and else of the last. A machine that stands
    still for a second says nothing about a server."""
    for _ in range(times):
        rows = list(cases())
        if all(found == expected for _, found, expected in rows):
            break
    return rows


def verdict(rows: Iterable[Row]) -> NoReturn:
    """Prints what failed and how many passed, and ends the process with 1 where one failed."""
    passed = failed = 0
    for name, found, expected in rows:
        if found == expected:
            passed += 1
        else:
            failed += 1
            print(f"{name}\nexpected: {expected!r}\nfound:    {found!r}", flush=True)
    print(f"{passed} passed, {failed} failed")
    sys.exit(1 if failed else 0)
