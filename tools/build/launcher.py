"""Runs a program of the product: the proved one where it is built from the sources that are there, else a build of the
same source that is not proved, which is made once. The program takes the launcher's place, so signals, streams and the
status are its own."""

import os
import re
import resource
import sys
import threading
import time
from typing import TextIO

from tools.build import current, proofs, repository, telling, unproved

# the crates of the programs, by their names
CRATES = {"radlimit": "rsl_app", "radlimitd": "radlimitd"}
LOG = os.path.join(repository.TOP, "out", "prove.log")
# the variable by which a program hears that it is proved, and at which commit
PROVED = "RADLIMITD_PROVED"
# the exit status of what an interrupt ends
INTERRUPTED = 130
# about how many seconds of a processor a build of each takes, without a proof
WORK = {"radlimit": 80, "radlimitd": 200}


def say(name: str, text: str) -> None:
    """One line on standard error."""
    print(f"{name}: {text}", file=sys.stderr, flush=True)


def build(name: str) -> str:
    """Builds a program, without a proof, and says meanwhile how far that is: its path."""
    is_other = threading.Event()

    def told(seconds: float) -> str:
        if is_other.is_set():
            return f"{name}: another process builds it, and this one waits: {seconds:.0f} s"
        done = min(99, 100 * telling.processor_seconds(os.getpid()) / WORK[name])
        return f"{name}: building it: {seconds:.0f} s, some {done:.0f}% is done"

    say(name, "building it, once: that takes a minute or two on a quiet machine")
    with telling.Waiting(told):
        return unproved.built(CRATES[name], wait=is_other.set)


def version() -> str:
    """The version of the programs, by their source."""
    with open(os.path.join(repository.folder_of("radlimitd"), "src", "main.rt"), encoding="utf-8") as file:
        found = re.search(r'^pub\(crate\) const VERSION: &str = "([^"]+)";$', file.read(), re.M)
    assert found is not None
    return found[1]


def launch(name: str, arguments: list[str]) -> int:
    """Runs a program in this one's place."""
    crate, environment = CRATES[name], {word: value for word, value in os.environ.items() if word != PROVED}
    if proofs.is_current(crate):
        path = proofs.program(crate)
        environment[PROVED] = repository.commit()
    else:
        is_built = unproved.is_current(crate)
        fault = None if is_built else current.kit_fault()
        if fault:
            say(name, fault)
            return 1
        say(name, "this build is not proved; ./radlimit prove proves both programs and builds them")
        try:
            path = unproved.path_of(crate) if is_built else build(name)
        except unproved.BuildFault as failed:
            say(name, str(failed))
            return 1
        except KeyboardInterrupt:
            return INTERRUPTED
    resource.setrlimit(resource.RLIMIT_CORE, (0, 0))  # no core with secrets
    os.execve(path, [path, *arguments], environment)


class Teller:
    """Writes what the prover prints to a log, and shows how far it is: on a terminal in one line, else in a line a crate."""

    def __init__(self, log: TextIO) -> None:
        self.log, self.is_terminal = log, sys.stderr.isatty()

    def hear(self, line: str) -> None:
        """Takes a line."""
        self.log.write(f"{line}\n")
        if line.startswith("radlimit: "):
            sys.stderr.write(f"\r\x1b[K{line}" if self.is_terminal else f"{line}\n")
            sys.stderr.flush()

    def end(self) -> None:
        """Clears the line of a terminal."""
        if self.is_terminal:
            sys.stderr.write("\r\x1b[K")


def prove() -> int:
    """Proves both programs and all that they stand on, and builds them, where that is not done: the exit status."""
    if all(proofs.is_current(crate) for crate in CRATES.values()):
        return 0
    fault = current.kit_fault()
    if fault:
        say("radlimit", fault)
        return 1
    began = time.monotonic()
    try:
        os.makedirs(os.path.dirname(LOG), exist_ok=True)
        with open(LOG, "w", encoding="utf-8") as log:
            say("radlimit", "proving both programs and building them: some 30 to 60 minutes, once")
            teller = Teller(log)
            failed = proofs.prove(list(CRATES.values()), hear=teller.hear)[1]
            teller.end()
    except OSError as error:
        say("radlimit", f"{error.filename or LOG} cannot be written: {error.strerror or error}")
        return 1
    if failed:
        say("radlimit", f"not proved: the prover's lines are in {os.path.relpath(LOG, repository.TOP)}")
        return 1
    say("radlimit", f"proved and built, in {(time.monotonic() - began) / 60:.0f} minutes")
    return 0
