"""Which edits a run of the gate tries. An edit is tried over a second proof of its crate, so a run tries all edits of
the crates that changed since theirs were last tried, and of the others a sixteenth: which, the date says."""

import datetime
import glob
import hashlib
import itertools
import os

from tools.build import repository

# of each crate the digest of what its edits were last tried over, and all refused: a crate and a digest a line
TRIED = os.path.join(repository.TOP, "tools", "edits-tried")
TURNS = 16

# what a line that is a comment begins with, by the end of its file's name
COMMENTS = {".rt": b"//", ".antt": b"--"}

# what a line of an edit begins with whose text has to occur once
OLD = b"old: "


def with_edits() -> list[str]:
    """The crates that have edits, in the order of the list."""
    found = repository.product()
    return [name for name in found if glob.glob(os.path.join(repository.CRATES, name, "must-fail", "*.edit"))]


def tried() -> dict[str, str]:
    """The digest at which the edits of each crate were last tried."""
    with open(TRIED, encoding="ascii") as file:
        return {name: digest for name, digest in map(str.split, file)}


def named_by_edits(folder: str) -> list[bytes]:
    """The texts that a crate's edits take away."""
    found = list[bytes]()
    for path in glob.glob(os.path.join(folder, "must-fail", "*.edit")):
        with open(path, "rb") as file:
            found += [line[len(OLD):].rstrip(b"\n") for line in file if line.startswith(OLD)]
    return found


def counted(path: str, octets: bytes, named: list[bytes]) -> bytes:
    """What counts of a file: of sources and definitions neither comments nor blank lines, but for a comment with a text that
    an edit names, as that has to occur once."""
    comment = COMMENTS.get(os.path.splitext(path)[1])
    if not comment:
        return octets
    lines = [line for line in octets.splitlines(keepends=True) if line.strip()]
    is_code = [not line.lstrip().startswith(comment) or any(text in line for text in named) for line in lines]
    return b"".join(itertools.compress(lines, is_code))


def digest(name: str) -> str:
    """A digest of what a crate's edits are tried over: its own files without comments, and the edits."""
    folder, summed = os.path.join(repository.CRATES, name), hashlib.sha256()
    paths = [glob.glob(os.path.join(folder, part, "**"), recursive=True) for part in (*repository.PARTS, "must-fail")]
    named = named_by_edits(folder)
    for path in sorted(path for found in paths for path in found if os.path.isfile(path)):
        with open(path, "rb") as file:
            octets = counted(path, file.read(), named)
        summed.update(f"{os.path.relpath(path, folder)} {len(octets)}\n".encode())
        summed.update(octets)
    return summed.hexdigest()


def changed() -> set[str]:
    """The crates that have changed since their edits were tried."""
    digests = tried()
    return {name for name in with_edits() if digests.get(name) != digest(name)}


def in_turn(day: datetime.date) -> list[str]:
    """The crates whose edits a run tries on a day."""
    found, differing = with_edits(), changed()
    others = [name for name in found if name not in differing]
    return [name for name in found if name in differing or others.index(name) % TURNS == day.toordinal() % TURNS]


def today() -> datetime.date:
    """The day, where it ends last: every machine takes the same."""
    return datetime.datetime.now(datetime.timezone.utc).date()


def note(digests: dict[str, str]) -> None:
    """Notes that all edits of some crates were refused, each over what has that digest."""
    noted = tried() | digests
    with open(TRIED, "w", encoding="ascii") as file:
        file.writelines(f"{name} {noted[name]}\n" for name in with_edits() if name in noted)
