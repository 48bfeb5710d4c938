"""Whether a program that is there is built from the sources that are there, by the kit that is there."""

import contextlib
import functools
import hashlib
import importlib.machinery
import importlib.util
import os
import shutil
import subprocess
import sys
import time
from collections.abc import Iterator
from types import ModuleType

from tools.build import repository

# what the kit's `rt` begins with when it says who it is, and how long it may take for that, in seconds
NAME, KIT_SECONDS = "rattle-kit", 60
# a file that changed so few nanoseconds ago may change once more without another time
UNSURE = 2_000_000_000


@functools.cache
def kit() -> str | None:
    """The name of the kit, or None where its `rt` is not the first on the PATH."""
    path = shutil.which("rt")
    if path is None:
        return None
    try:
        run = subprocess.run(
            [path, "version"], stdin=subprocess.DEVNULL, capture_output=True, text=True, errors="replace", check=False,
            timeout=KIT_SECONDS,
        )
    except (OSError, subprocess.TimeoutExpired):
        return None
    return run.stdout.strip() if run.returncode == 0 and run.stdout.startswith(NAME) else None


def kit_fault() -> str | None:
    """What is wrong with the `rt` on the PATH, or None where it is the kit's."""
    if kit() is not None:
        return None
    path = shutil.which("rt")
    if path is None:
        return "the command `rt` of the Rattle kit is not on the PATH"
    return f"{path} is not the command `rt` of the Rattle kit: put the kit's folder bin first on the PATH"


def load_kit(*names: str) -> ModuleType | None:
    """The kit's `rt` as a module, or None where it hasn't what goes by these names: the kit promises none of it."""
    path = shutil.which("rt")
    if path is None:
        return None
    loader = importlib.machinery.SourceFileLoader("rt", os.path.realpath(path))
    spec = importlib.util.spec_from_loader("rt", loader)
    assert spec is not None
    found = importlib.util.module_from_spec(spec)
    sys.modules["rt"] = found
    try:
        loader.exec_module(found)
    except Exception:  # whatever is wrong with it, it is no `rt` that is known here
        return None
    return found if all(hasattr(found, name) for name in names) else None


def stat_of(path: str) -> os.stat_result | None:
    """What the file system says of a file, or None where it is not there."""
    try:
        return os.stat(path)
    except OSError:
        return None


def look_of(paths: list[str]) -> tuple[str, int]:
    """What tells whether one of some files changed, without reading them, and when one last did."""
    summed, newest = hashlib.sha256(), 0
    for path in paths:
        found = stat_of(path)
        if found is not None:
            newest = max(newest, found.st_ctime_ns)
            summed.update(f"{path} {found.st_ino} {found.st_size} {found.st_mtime_ns} {found.st_ctime_ns}\n".encode())
    return summed.hexdigest(), newest


def files_of_kit() -> Iterator[str]:
    """The files that are others in another kit: none where no `rt` is on the PATH."""
    path = shutil.which("rt")
    if path is not None:
        path = os.path.realpath(path)
        yield from (path, os.path.join(os.path.dirname(os.path.dirname(path)), "KIT-ID"))


class Seen:
    """How a program, its sources and the kit looked when they were last compared, and how they look now: where that is the
    same, nothing has to be read."""

    def __init__(self, path: str, name: str, top: str):
        self.path, files = f"{path}.seen", [path, *repository.lists_of(top), *repository.sources([name], top)]
        looks = look_of(files), look_of(list(files_of_kit()))
        self.words = [look for look, _ in looks]
        self.is_sure = max(newest for _, newest in looks) < time.time_ns() - UNSURE

    def is_same(self) -> bool:
        """Whether nothing changed. A kit that is not there changes nothing."""
        try:
            with open(self.path, encoding="ascii") as file:
                noted = file.read().split()
        except (OSError, ValueError):
            return False
        return noted == self.words or noted[:1] == self.words[:1] and shutil.which("rt") is None

    def note(self) -> None:
        """Notes how all looked, if whoever runs this may."""
        if self.is_sure:
            with contextlib.suppress(OSError), open(self.path, "w", encoding="ascii") as file:
                file.write(" ".join(self.words))


def note(path: str, digest: str) -> None:
    """Notes beside a program what it was built from, and by which kit."""
    with open(f"{path}.sources", "w", encoding="utf-8") as file:
        file.write(f"{digest}\n{kit()}\n")


def is_current(path: str, name: str, top: str = repository.TOP) -> bool:
    """Whether a program is there, and built from the sources that are there, by the kit that is there if one is."""
    if not os.access(path, os.X_OK) or not os.path.isfile(f"{path}.sources"):
        return False
    seen = Seen(path, name, top)
    if seen.is_same():
        return True
    with open(f"{path}.sources", encoding="utf-8") as file:
        noted = file.read().splitlines()
    if noted[:1] != [repository.digest([name], top)] or kit() not in (None, *noted[1:]):
        return False
    seen.note()
    return True
