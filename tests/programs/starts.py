#!/usr/bin/env python3
"""What the scripts say whose program does not start: that it is not there; its own words at once, where it fails; and where
a port was taken, its words after three turns. No program of the repository is needed.

usage: python3 -m tests.programs.starts
"""

import os
import subprocess
import sys
import tempfile

from tests.lib import rows
from tools.build.repository import TOP

SCRIPTS = ("tests/programs/radclient-run.sh", "tests/programs/networks.sh")
# what stands for the program: its words, and how often a script starts it
FAULTS = (("radlimitd.toml: no such file", 1), ("127.0.0.1:1812: cannot be bound: in use", 3))


def run(script, program):
    """The exit status of a script that is given a program, and what it says on standard error."""
    done = subprocess.run([os.path.join(TOP, script), program], capture_output=True, text=True, check=False)
    return done.returncode, done.stderr


def cases(folder):
    """Each case: its name, what a script did, and what it has to do."""
    absent, fails = os.path.join(folder, "absent"), os.path.join(folder, "fails")
    for script in SCRIPTS:
        status, said = run(script, absent)
        yield f"{script}: no program", (status, said.startswith(f"{absent} is not there: ")), (1, True)
        for words, often in FAULTS:
            with open(fails, "w", encoding="ascii") as file:
                file.write(f'#!/bin/sh\necho x >> {folder}/often\necho "{words}" >&2\nexit 2\n')
            os.chmod(fails, 0o755)
            status, said = run(script, fails)
            with open(os.path.join(folder, "often"), encoding="ascii") as file:
                found = status, words in said, len(file.readlines())
            os.remove(os.path.join(folder, "often"))
            yield f"{script}: {words}", found, (1, True, often)


if __name__ == "__main__":
    if sys.argv[1:]:
        sys.exit(__doc__)
    with tempfile.TemporaryDirectory() as top:
        rows.verdict(cases(top))
