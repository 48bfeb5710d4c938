"""How many rows each part had when that was last kept, in tools/counts: a part that has fewer fails, so that no row goes
away unseen."""

import os

from tools.build import repository
from tools.check.comparing import Outcome

KEPT = os.path.join(repository.TOP, "tools", "counts")

# parts whose rows are files and crates: what misses one of these says so itself
WITHOUT = ("layout", "proofs")


def kept() -> dict[str, int]:
    """The rows that were kept of each part, by its name."""
    if not os.path.isfile(KEPT):
        return {}
    with open(KEPT, encoding="ascii") as file:
        lines = [line.rstrip("\n").partition(" ") for line in file]
    return {name: int(count) for count, _, name in lines}


def fault(name: str, outcome: Outcome) -> str | None:
    """What is wrong with the number of rows of a part, if anything is. A part that failed, or left something out, says by
    itself that it has fewer."""
    least = kept().get(name, 0)
    if outcome.failed or outcome.left_out or outcome.impossible or outcome.passed >= least:
        return None
    return f"{name}: {outcome.passed} rows, and {least} in tools/counts, which --keep-counts writes anew"


def keep(outcomes: dict[str, Outcome]) -> None:
    """Writes how many rows parts had, of each that passed and left nothing out."""
    found = kept() | {
        name: one.passed for name, one in outcomes.items()
        if one.passed and not one.failed and not one.left_out and not one.impossible and name not in WITHOUT
    }
    with open(KEPT, "w", encoding="ascii") as file:
        file.writelines(f"{count} {name}\n" for name, count in sorted(found.items()))
