"""What linters say of the Python of the repository, where they are there: of its style, by pyproject.toml's rules of
ruff, or else by flake8, and of the types of tools/ and tests/lib, by mypy."""

import os
import shutil
import subprocess

from tools.build import repository
from tools.check.comparing import FAILED, PASSED, Outcome, total

# the words of flake8 that make its rules those of pyproject.toml: E203 and W503 are not of ruff
FLAKE8 = [
    "flake8", "--max-line-length=125", "--select=E,F,W", "--extend-ignore=E203,W503", "--exclude=out,crates,.git",
    "--per-file-ignores=tests/programs/*:E501",
]
RUFF = ["ruff", "check", "--no-cache"]
MYPY = ["mypy"]

# Python without its ending
EXECUTABLES = ["check", "radlimit", "radlimitd", "packaging/build-deb", "packaging/verify", "packaging/radlimit-split"]


def says_nothing(words: list[str]) -> Outcome:
    """Whether a linter finds nothing."""
    run = subprocess.run(words, cwd=repository.TOP, check=False, stdout=subprocess.PIPE, stderr=subprocess.STDOUT, text=True)
    if run.returncode == 0:
        return PASSED
    print(f"{words[0]}:\n{run.stdout}", end="")
    return FAILED


def check() -> Outcome:
    """What the linters say that are there."""
    outcomes = []
    for linters in ((RUFF, FLAKE8), (MYPY,)):
        there = next((words for words in linters if shutil.which(words[0])), None)
        if there is None:
            outcomes.append(Outcome(0, 0, (f"what {linters[-1][0]} says (no {linters[-1][0]} here)",)))
        else:
            outcomes.append(says_nothing(there if there is MYPY else [*there, os.curdir, *EXECUTABLES]))
    return total(outcomes)
