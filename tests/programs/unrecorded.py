"""Has a life, and a turn, answer a batch that was not recorded, and sees that it does not compile: decisions are answered
as a `Recorded`, which `Store::commit` alone makes. Each case is a copy of the sources with one line changed, and an
error that the compiler has to give.

usage: python3 -m tests.programs.unrecorded
"""

import os
import shutil
import subprocess
import sys
import tempfile

from tools.build.repository import TOP
LIFE = ("rld_lives", "living.rt", "RecordFault::Failed => outcomes.push_reserved(Err(RecordFault::Failed)),")
TURN = ("rld_current", "shared.rt", "Err(fault) => Err(fault),")

# the errors: over the sources of the libraries, and over built ones, which have no private functions
BY_FUNCTION = (
    "error[private-item]: associated function `new` is private",
    "error[unknown-method]: no function or constant named `new` found for struct `Recorded`",
)
BY_FIELD = ("error[private-field]: field `decisions` of struct `Recorded` is private",)

# where a batch was not recorded, what stands there in place of that, and the errors of which there has to be one
CASES = {
    "a life's, by its function": (
        LIFE, "RecordFault::Failed => outcomes.push_reserved(Ok(Recorded::new(Vec::new(alloc)))),", BY_FUNCTION
    ),
    "a life's, by its field": (
        LIFE, "RecordFault::Failed => outcomes.push_reserved(Ok(Recorded { decisions: Vec::new(alloc) })),", BY_FIELD
    ),
    "a turn's, by its function": (
        TURN, "Err(_) => Ok(Some(Recorded::new(Vec::new(alloc)))),", BY_FUNCTION
    ),
    "a turn's, by its field": (
        TURN, "Err(_) => Ok(Some(Recorded { decisions: Vec::new(alloc) })),", BY_FIELD
    ),
}


def printed(top, place, answer):
    """What `rt check` says of a crate, in a copy in which a batch that was not recorded is answered so."""
    crate, file, unrecorded = place
    shutil.copytree(os.path.join(TOP, "crates"), os.path.join(top, "crates"), ignore=shutil.ignore_patterns("out"))
    for name in ("crates.txt", "HANDLES"):
        shutil.copy(os.path.join(TOP, name), top)
    folder = os.path.join(top, "crates", crate)
    path = os.path.join(folder, "src", file)
    with open(path, encoding="utf-8") as source:
        text = source.read()
    if text.count(unrecorded) != 1:
        return f"{crate}/src/{file} has no one line with {unrecorded!r}"
    with open(path, "w", encoding="utf-8") as source:
        source.write(text.replace(unrecorded, answer))
    # types are looked at first, before a library is built or a function proved: there is none of this name
    run = subprocess.run(["rt", "check", "--only", "none"], cwd=folder, check=False, capture_output=True, text=True)
    return run.stdout + run.stderr


def main():
    failed = 0
    for name, (place, answer, errors) in CASES.items():
        with tempfile.TemporaryDirectory() as top:
            found = printed(top, place, answer)
        if not any(error in found for error in errors):
            failed += 1
            print(f"a decision that was not recorded: {name}\nexpected: {errors[0]}\nfound:    {found.strip()}")
    print(f"{len(CASES) - failed} passed, {failed} failed")
    return 1 if failed else 0


sys.exit(main())
