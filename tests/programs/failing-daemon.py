"""Has calls of `radlimitd run` to the system fail, one after the other, and looks at how it goes on or ends.

Each case has a folder of its own. In a first life the call fails, while an access server asks four times and tells of
four sessions, and repeats what is not answered. Either all is answered in the end, or the life has ended with the
status and the text that it should. Then a second life goes on, in which nothing fails: each request is repeated, and
answered, with the octets of before if it was; and the lines of the folder have each request's move with its decision.

Where a receive fails, a thread can't be made, a socket can't be had or a write of the start fails the status is 2, where
the disk can't be synced 4. A receive that is interrupted, shall come again or is refused memory, a send that fails, a
later write that the disk has no room for, and a clock that fails later are passed over, and a write that failed is
told, once, and that it is over.

A clock that goes back is shown until it is there again, and no deadline passes meanwhile. An archive that may have a
megabyte has the newest logs, and the server shows how many.

Then the same calls of a start fail whose account file has changed: a start behind it goes on from the generation before the
change, or from the one that began with it. And those of a server that reads such a file while it runs: it goes on with what it has, and reads it
once more when it is asked again; or it has ended, and the next start goes on.

And in the log of such a change, and in that of a second life, every sync fails from some time on: the life ends with 4,
and where each batch is synced it has answered nothing new. The same in the log of a roll, with each policy of `sync`:
where a tick syncs, it has answered all until that tick, and where nothing does, it goes on.

usage: python3 -m tests.programs.failing-daemon
It wants Linux, the built program and a C compiler, for a library that stands before the C library
(tests/lib/failing.c).
"""

import contextlib
import errno
import os
import re
import select
import subprocess
import sys
import tempfile
import time
from concurrent.futures import ThreadPoolExecutor

from tests.lib import seen, served

SECRET, PASSWORD = b"testing123", b"pw-common"
PORTS = ["auth", "acct"]
REQUESTS, PLACES = 4, 8
SECONDS = served.patience(60)  # that a life may take; one that can make no thread takes many
TOLD = 30  # in which a later tick tells of a write, and less than an ask is kept
SAYS = 2.5  # seconds within which it has said what it was asked to do
TICKS = 600  # of a generation, after which the next one begins
GREETING = rf"{served.GREETING.pattern}.*\n"  # of a start
UNRECORDED = "not recorded, and so not answered: the disk is full or fails, or memory is refused\n"
RECORDED = "recorded again\n"
ALL_WELL = None, ""
# calls of which one may come only with a later tick
TOLD_LATER = {"pwrite", "fdatasync"}


def requests(first=0):
    """What is asked of both ports, by numbers from a first one on: the port's place, and octets."""
    for number in range(first, first + REQUESTS):
        name = served.attribute(1, b"auth")
        yield 0, served.access_request(number, SECRET, name, bytes([number]) * 16, PASSWORD)
    for number in range(REQUESTS):
        name = served.attribute(1, b"acct") + served.attribute(44, b"s%d" % number)
        yield 1, served.accounting_request(number, SECRET, served.START, name)


def besides(text, greeting):
    """What a `radlimitd` said besides its greeting and the lines of what it refused."""
    return served.but_refusals(re.sub(greeting, "", served.but_first_lines(text), flags=re.M))


class Case:
    """A folder, and the lives over it."""

    def __init__(self, folder, library, sync):
        self.folder, self.library = folder, library
        self.ports = served.free_ports()
        self.write(PLACES)
        self.file = served.daemon_file(folder, self.ports, 1, sync)
        self.server = served.Repeater(list(requests()), SECRET)

    def write(self, places):
        """Writes the account file, with so many places for each account."""
        accounts = [(name, PASSWORD, places, 1) for name in PORTS]
        served.account_file(
            os.path.join(self.folder, "accounts.toml"), [(served.HOST, SECRET, False)], accounts, shards=2, reserve=60,
            keep=60,
        )

    def begun(self, call, nth, error, port=None, during="", **others):
        """A life in which a call fails, while a file is there if one is named, and whether it has begun in time. The others
        are variables of its environment."""
        number = self.ports[PORTS.index(port)] if port else "0"
        failing = {"LD_PRELOAD": self.library, "CALL": call or "", "NTH": str(nth), "ERROR": str(error), "PORT": number}
        life = served.daemon(self.file, failing | ({"WHILE": during} if during else {}) | others)
        return life, bool(select.select([life.stderr], [], [], SECONDS)[0])

    def life(self, call=None, nth=0, error=0, port=None, ends=False):
        """The answers of a life in which a call fails, its status, None where it went on, and what it said. One that
        ends by itself may do so behind its last answer."""
        life, greeted = self.begun(call, nth, error, port)
        answers = self.server.ask(self.ports, life, SECONDS) if greeted else {}
        said = ""
        os.set_blocking(life.stderr.fileno(), False)
        if ends:
            with contextlib.suppress(subprocess.TimeoutExpired):
                life.wait(SECONDS)
        deadline = time.monotonic() + TOLD
        # ticks write and sync too, and what is told of a failed write is told by the next ones
        while life.poll() is None and time.monotonic() < deadline and call in TOLD_LATER and RECORDED not in said:
            said += (life.stderr.read() or b"").decode()
            time.sleep(0.1)
        status = life.poll()
        life.kill()
        life.wait()
        said += (life.stderr.read() or b"").decode()
        life.stderr.close()
        return answers, status, besides(said, rf"\A{GREETING}(accounts changed: .*\n)?")

    def await_tick(self, name="log-1"):
        """Waits for the next tick to be recorded in a log."""
        log = os.path.join(self.folder, "state", name)
        size, until = os.path.getsize(log), time.monotonic() + SECONDS
        while os.path.getsize(log) == size and time.monotonic() < until:
            time.sleep(0.001)
        time.sleep(0.05)

    def moves(self):
        """The moves of the folder: how many asks were accepted, and the sessions that were told of."""
        state = os.path.join(self.folder, "state")
        logs = []
        for folder in filter(os.path.isdir, (os.path.join(state, "archive"), state)):
            logs += sorted(os.path.join(folder, name) for name in os.listdir(folder) if name.startswith("log-"))
        run = subprocess.run([served.DAEMON, "lines", *logs], capture_output=True, text=True, check=False)
        asks = {line for line in re.findall(r" ask .* -> accept \d+$", run.stdout, re.M)}
        return run.returncode, len(asks), len(set(re.findall(r" alive .* session=(\S+)", run.stdout)))


def tried(library, sync, call, nth, error, port, ends):
    """What came of a case, whose first life ends by itself or not: the status and the text of the first life, whether
    each of its requests was answered or it has ended, whether the second one answered all, as the first one did, and
    the moves of the folder."""
    with tempfile.TemporaryDirectory() as folder:
        case = Case(folder, library, sync)
        first, status, said = case.life(call, nth, error, port, ends)
        second, went_on, quiet = case.life()
        case.server.close()
        same = all(second.get(place) == reply for place, reply in first.items())
        is_whole = len(second) == len(case.server.requests) and went_on is None and not quiet
        return status, said, len(first) == len(second) or status is not None, same and is_whole, case.moves()


def tried_changed(library, call, nth, error, ends):
    """The same where a life before has answered all, and the account file has changed then: what came of the life in
    which the call fails, and of one behind it."""
    with tempfile.TemporaryDirectory() as folder:
        case = Case(folder, library, "always")
        before, *ended = case.life()
        case.write(PLACES + 1)
        _, status, said = case.life(call, nth, error, ends=ends)
        after, went_on, quiet = case.life()
        case.server.close()
        is_whole = len(after) == len(case.server.requests) and went_on is None and not quiet
        return status, said, ended == [None, ""], before == after and is_whole, case.moves()


def tried_reload(library, call, nth, error, ends):
    """What came of a life that reads an account file while a call fails: what it answers, how it ended if it did, whether
    it answers as before, what it answers when nothing fails, and the same of a life behind it."""
    with tempfile.TemporaryDirectory() as folder:
        case, during = Case(folder, library, "always"), os.path.join(folder, "failing")
        life, _ = case.begun(call, nth, error, during=during)
        before = case.server.ask(case.ports, life, SECONDS)
        case.write(PLACES + 1)
        # between two ticks, which write and sync too
        case.await_tick()
        with open(during, "wb"):
            answer = served.asked("reload", case.file)
        with contextlib.suppress(subprocess.TimeoutExpired):
            life.wait(SECONDS if ends else 0)
        os.remove(during)
        again, status = case.server.ask(case.ports, life, SECONDS), life.poll()
        then = served.asked("reload", case.file)
        # what it says is written each second
        time.sleep(0 if ends else SAYS)
        life.kill()
        said = besides(life.communicate()[1].decode(), rf"\A{GREETING}")
        after, went_on, quiet = case.life()
        case.server.close()
        is_whole = before == after and went_on is None and not quiet
        return (*answer[:2], status, said), status is not None or again == before, then[0], is_whole, case.moves()


def tried_later(library, sync, is_change):
    """What came of a life that has answered all, in the log of a change of accounts or in that of a second life,
    when every sync fails then: the status, what it said, how much of what was asked then it answered, and whether a life
    behind it answers as before."""
    with tempfile.TemporaryDirectory() as folder:
        case, during = Case(folder, library, sync), os.path.join(folder, "failing")
        if not is_change:
            case.life()
        life, _ = case.begun("fdatasync", 0, errno.EIO, during=during)
        before = case.server.ask(case.ports, life, SECONDS)
        if is_change:
            case.write(PLACES + 1)
            served.asked("reload", case.file)
        late = served.Repeater(list(requests(REQUESTS)), SECRET)
        # with a sync a second, what comes now is answered before the next one
        case.await_tick("log-2")
        with open(during, "wb"):
            answered = late.ask(case.ports, life, SECONDS)
        with contextlib.suppress(subprocess.TimeoutExpired):
            life.wait(SECONDS)
        status = life.poll()
        life.kill()
        said = besides(life.communicate()[1].decode(), rf"^{GREETING}|^accounts .*\n")
        after, *went_on = case.life()
        late.close()
        case.server.close()
        is_whole = before == after and len(after) == REQUESTS * len(PORTS) and went_on == [None, ""]
        return status, said, len(answered) if sync == "always" else 0, is_whole


def later():
    """What is tried with a later log: its name, the policy of `sync`, and whether a change of accounts begins the log."""
    for sync in ("always", "second"):
        yield f"{sync}: each sync behind a change fails", sync, True
        yield f"{sync}: each sync of a second life fails", sync, False


def awaited(are_seen):
    """Waits until something is seen, for so long as a life may take."""
    until = time.monotonic() + SECONDS
    while not are_seen() and time.monotonic() < until:
        time.sleep(0.001)


def tried_roll(library, sync):
    """What came of a life that has answered all, in the log of a roll, when every sync fails then: the status, what it
    said, how much of what was asked before the next tick it answered, and whether a life behind it answers as before.

    The tick behind the roll is held until a sync has failed or all is answered: no other tick comes in between."""
    with tempfile.TemporaryDirectory() as folder:
        case, during, until = Case(folder, library, sync), *(os.path.join(folder, name) for name in ("failing", "until"))
        life, _ = case.begun("fdatasync", 0, errno.EIO, during=during, SLEEPS=str(TICKS - 1), UNTIL=until)
        before = case.server.ask(case.ports, life, SECONDS)
        state = os.path.join(folder, "state")
        awaited(lambda: os.path.exists(os.path.join(state, "archive", "log-1")))
        late, sizes = served.Repeater(list(requests(REQUESTS)), SECRET), set()
        with open(during, "wb"):
            answered = late.ask(case.ports, life, SECONDS)
        # it has ended, or a tick comes behind one that was recorded
        with open(until, "wb"):
            log = os.path.join(state, "log-2")
            awaited(lambda: life.poll() is not None or sizes.add(os.path.getsize(log)) or len(sizes) > 2)
        status = life.poll()
        life.kill()
        said = besides(life.communicate()[1].decode(), rf"^{GREETING}")
        after, *went_on = case.life()
        late.close()
        case.server.close()
        is_whole = before == after and len(after) == REQUESTS * len(PORTS) and went_on == [None, ""]
        return status, said, len(answered), is_whole


# with each policy of `sync`: how a life ends whose syncs fail in the log of a roll, and what it has answered
ROLLED = {
    "always": (4, "the disk cannot be synced\n", 0, True),
    "second": (4, "the disk cannot be synced\n", REQUESTS * len(PORTS), True),
    "never": (*ALL_WELL, REQUESTS * len(PORTS), True),
}


# what a server answers, and says, that has read a file in the end
READ = "4 of 4 sessions go on\n"


# the errors of a write, and what is said of them
UNWRITTEN = (
    (errno.ENOSPC, "no room on the disk"), (errno.EDQUOT, "no room on the disk"), (errno.EIO, "cannot be written"),
)


def reloads():
    """What is tried with an account file that a server reads while it runs: its name, the call that fails with its number
    and error; what it answers then, how it ends and what it has said, and what it answers when nothing fails."""
    # 1 is the name of the log, and 2 the log once it has begun
    for nth, file in ((1, "log-2"), (2, "bad folder")):
        answer = "", f"no change yet: {file}: cannot be synced\n", None, f"accounts read anew: {READ}"
        yield f"reload: sync {nth} of a file or name fails", ("fsync", nth, errno.EIO), answer, READ
    # the header and the snapshot
    for nth in (1, 2):
        answer = "", "no change yet: cannot be synced\n", None, f"accounts read anew: {READ}"
        yield f"reload: sync {nth} of a log fails", ("fdatasync", nth, errno.EIO), answer, READ
        for error, cause in UNWRITTEN:
            answer = "", f"no change yet: {cause}\n", None, f"accounts read anew: {READ}"
            yield f"reload: write {nth} gives {errno.errorcode[error]}", ("pwrite", nth, error), answer, READ
    answer = "", "no change yet: nothing more can be recorded\n", 4, "the disk cannot be synced\n"
    yield "reload: a log is not synced and not removed", ("fsync", -2, errno.EIO), answer, ""


def changed():
    """What is tried with an account file that has changed: its name, the call that fails with its number and error, and
    how the life should end."""
    # 1 is the name of the log, and 2 the log once it has begun
    for nth in (1, 2):
        ending = 4, "log-2: cannot be synced\n"
        yield f"changed accounts: sync {nth} of a file or name fails", ("fsync", nth, errno.EIO), ending
    # 1 is the log that was opened, 2 and 3 are the header and the snapshot
    for nth, file in ((1, "log-1"), (2, "log-2"), (3, "log-2")):
        ending = 4, f"{file}: cannot be synced\n"
        yield f"changed accounts: sync {nth} of a log fails", ("fdatasync", nth, errno.EIO), ending
    for nth in (1, 2):
        ending = 2, "log-2: no room on the disk\n"
        yield f"changed accounts: write {nth} fails", ("pwrite", nth, errno.ENOSPC), ending


def cases():
    """What is tried with each batch synced: its name, the call that fails with its number, error and port, and how the
    life should end."""
    for port in PORTS:
        for nth in (1, 2, 5):
            yield f"{port}: receive {nth} fails", ("recvfrom", nth, errno.EIO, port), (2, "a socket failed\n")
            for error in (errno.EAGAIN, errno.EINTR, errno.ENOMEM):
                name = f"{port}: receive {nth} gives {errno.errorcode[error]}"
                yield name, ("recvfrom", nth, error, port), ALL_WELL
            for error in (errno.EPERM, errno.ENOBUFS, errno.EAGAIN):
                yield f"{port}: send {nth} gives {errno.errorcode[error]}", ("sendto", nth, error, port), ALL_WELL
    for nth in (1, 2):
        yield f"thread {nth} fails", ("pthread_create", nth, errno.EAGAIN, None), (2, "no thread for each receiver\n")
    yield "every thread fails", ("pthread_create", 0, errno.EAGAIN, None), (2, "no thread for each receiver\n")
    yield "the clock fails at the start", ("clock_gettime", 1, errno.EINVAL, None), (2, "input or output fault\n")
    yield "the clock fails later", ("clock_gettime", 3, errno.EINVAL, None), ALL_WELL
    yield "the name of a log is not synced", ("fsync", 1, errno.EIO, None), (4, "log-1: cannot be synced\n")
    # 1 and 2 are the header and the snapshot; then ticks and batches
    for nth in (1, 2):
        yield f"sync {nth} fails", ("fdatasync", nth, errno.EIO, None), (4, "log-1: cannot be synced\n")
        for error, cause in UNWRITTEN:
            name = f"write {nth} gives {errno.errorcode[error]}"
            yield name, ("pwrite", nth, error, None), (2, f"log-1: {cause}\n")
    for nth in (3, 4, 5):
        yield f"sync {nth} fails", ("fdatasync", nth, errno.EIO, None), (4, "the disk cannot be synced\n")
        yield f"write {nth} fails", ("pwrite", nth, errno.ENOSPC, None), (None, UNRECORDED + RECORDED)


def rarer():
    """What is tried with other policies of `sync`: the same, behind the policy."""
    # 1 and 2 are those again, and then comes one a second
    for nth in (3, 5):
        yield "second", f"second: sync {nth} fails", ("fdatasync", nth, errno.EIO, None), (4, "the disk cannot be synced\n")
    # 1 is the header
    yield "never", "never: sync 2 fails", ("fdatasync", 2, errno.EIO, None), ALL_WELL
    for policy in ("second", "never"):
        name = f"{policy}: write 5 fails"
        yield policy, name, ("pwrite", 5, errno.ENOSPC, None), (None, UNRECORDED + RECORDED)


def shown(of, *given):
    """What a server shows, in a folder of its own."""
    with tempfile.TemporaryDirectory() as folder:
        return of(folder, *given)


def main():
    if sys.argv[1:]:
        sys.exit(__doc__)
    with tempfile.TemporaryDirectory() as folder, ThreadPoolExecutor(8) as pool:
        library = served.built(folder, "failing", "-shared", "-fPIC")
        rows = [("always", *row) for row in cases()] + list(rarer())
        found = pool.map(lambda row: tried(library, row[0], *row[2], ends=row[3][0] is not None), rows)
        moves = 0, REQUESTS, REQUESTS
        expected = ((*ending, True, True, moves) for *_, ending in rows)
        results = list(zip((name for _, name, *_ in rows), found, expected))
        found = pool.map(lambda row: tried_changed(library, *row[1], ends=row[2][0] is not None), changed())
        results += [(name, came, (*ending, True, True, moves)) for (name, _, ending), came in zip(changed(), found)]
        found = pool.map(lambda row: tried_reload(library, *row[1], ends=row[2][2] is not None), reloads())
        expected = ((answer, True, then, True, moves) for _, _, answer, then in reloads())
        results += list(zip((name for name, *_ in reloads()), found, expected))
        found = pool.map(lambda row: tried_later(library, *row[1:]), later())
        results += [(name, came, (4, "the disk cannot be synced\n", 0, True)) for (name, *_), came in zip(later(), found)]
        found = pool.map(lambda sync: tried_roll(library, sync), ROLLED)
        results += [(f"{sync}: each sync behind a roll fails", came, ROLLED[sync]) for sync, came in zip(ROLLED, found)]
        results.append(("a clock that goes back", shown(seen.clock, library), seen.CLOCK))
        results.append(("an archive that has a size", shown(seen.archive), seen.ARCHIVE))
        served.verdict(results)


main()
