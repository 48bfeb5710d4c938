"""Where the programs are that scripts run: the proved ones, or unproved builds where the environment has
`PROGRAMS=unproved`. Those of tests/unit and bench/ are never proved."""

import os
import sys
from collections.abc import Iterator

from tools.build import proofs, repository, unproved


def is_unproved() -> bool:
    """Whether scripts take unproved builds."""
    return os.environ.get("PROGRAMS") == "unproved"


def patience(seconds: int) -> int:
    """How long is waited for what takes so many seconds at most on a proved program. A build that is not proved checks each
    access and runs beside much else: there it may take ten times as long."""
    return 10 * seconds if is_unproved() else seconds


def in_time(name: str, seconds: float, most: float, least: float = 0) -> Iterator[tuple[str, bool, bool]]:
    """A row: whether something took a right number of seconds. Of a build that is not proved nobody asks that."""
    if not is_unproved():
        yield name, least <= seconds < most, True


def path_of(name: str) -> str:
    """The path of a program. It ends the script where the proved one is not there."""
    if is_unproved() or name not in repository.product():
        try:
            return unproved.built(name)
        except unproved.BuildFault as fault:
            sys.exit(str(fault))
    path = proofs.program(name)
    if not os.access(path, os.X_OK):
        where = os.path.relpath(path, repository.TOP)
        sys.exit(f"{where} is not there: `./radlimit prove` builds it; PROGRAMS=unproved takes a build that is not proved")
    return path
