"""`rt` of the kit, which reckons for the check of a crate as much memory as it takes at most, and no more. So it proves two
large crates at once, each on several processors. What it judges, and how, stays the kit's.

usage: python3 -m tools.build.spread WORD ..      the words of `rt`
"""

import os
import sys
from typing import Any

from tools.build import current, proofs


def main(words: list[str]) -> int:
    """Runs `rt`: its exit status."""
    rt: Any = current.load_kit("need", "main")
    if rt is None:
        # another kit than those known here: a crate a processor
        os.environ["RT_JOBS"] = str(proofs.crates_at_once())
        os.execvp("rt", ["rt", *words])
    reckoned = rt.need
    rt.need = lambda crate: min(reckoned(crate), proofs.LARGEST)
    status: int = rt.main(words)
    sys.stdout.flush()
    return status


if __name__ == "__main__":
    sys.exit(main(sys.argv[1:]))
