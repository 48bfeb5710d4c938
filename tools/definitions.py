"""Prints where each definition lives: for each file of crates/*/specs its path and what its head says that it defines.

usage: python3 -m tools.definitions [WORD]        with a WORD, only the files whose path or head has it
"""

import glob
import os
import sys

from tools.build.repository import TOP


def head(path: str) -> str:
    """The comment at the beginning of a file, as one line."""
    words = []
    with open(path, encoding="utf-8") as file:
        for line in file:
            if not line.startswith("--"):
                break
            words.append(line[2:].strip())
    return " ".join(words)


def main() -> None:
    if len(sys.argv) > 2 or sys.argv[1:2] in (["-h"], ["--help"]):
        sys.exit(__doc__)
    word = sys.argv[1].lower() if sys.argv[1:] else ""
    for path in sorted(glob.glob(os.path.join(TOP, "crates", "*", "specs", "**", "*.antt"), recursive=True)):
        line = f"{os.path.relpath(path, TOP)}: {head(path)}"
        if head(path) and word in line.lower():
            print(line)


main()
