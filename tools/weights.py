"""Says what the proofs of each crate weigh, or those of each function of one crate, the heaviest first: the octets that
checks have left in its out/incremental. Where a check was made after an edit, what the text before it left is counted too:
remove that folder and check again.

It measures no time, so nothing has to be quiet. A second of one processor makes some 2.1 MB (docs/GATE.md).

usage: python3 -m tools.weights [CRATE]
"""

import collections
import os
import re
import sys
from collections.abc import Iterator

from tools.build.repository import TOP

CRATES = os.path.join(TOP, "crates")
PROOF = re.compile(r"Rattle-\w+-proofs\.(.*)\.oantt")
MOST = 40  # functions that are told
REST = "types, impls and lemmas"


def files_of(crate: str) -> Iterator[tuple[str, int]]:
    """Of each file that checks of a crate have left for its proofs: its name there, and its octets."""
    for folder, _, names in os.walk(os.path.join(CRATES, crate, "out", "incremental")):
        for name in names:
            # the records of a file stand beside it under a longer name
            if found := PROOF.fullmatch(re.sub(r"\.decls\.oantt$", ".oantt", name)):
                yield found[1], os.path.getsize(os.path.join(folder, name))


def weights_of(crate: str) -> collections.Counter[str]:
    """The octets of the proofs of each function of a crate, and of all else in it."""
    files = list(files_of(crate))
    functions = {name.removesuffix(".Code") for name, _ in files if name.endswith(".Code")}
    weights = collections.Counter[str]()
    for name, octets in files:
        parts = name.split(".")
        names = (".".join(parts[:count]) for count in range(len(parts), 0, -1))
        weights[next((it for it in names if it in functions), REST)] += octets
    return weights


def main() -> None:
    match sys.argv[1:]:
        case []:
            weights = {crate: weights_of(crate).total() for crate in os.listdir(CRATES)}
        case [crate] if os.path.isdir(os.path.join(CRATES, crate)):
            weights = dict(weights_of(crate).most_common(MOST))
        case _:
            sys.exit(__doc__)
    for name, octets in sorted(weights.items(), key=lambda weight: -weight[1]):
        if octets:
            print(f"{octets / 1e6:8.1f} MB  {name.replace('.', '::')}")


if __name__ == "__main__":
    main()
