"""Refuses each allocation of the proved programs in turn, and each with the one after it, and looks at what they
then answer. It wants a C compiler, for a library that stands before the C library.

`radlimit replay`: either the whole script is given up, with status 3 and nothing on standard output; or some lines
say `refused`, and every other line is what it is in the script without those (but for `on`, `off` and `tick`, some
of whose steps may have been taken); or nothing changes, as where a list grows by less instead.

`radlimit serve`, with a turn to take for each receiver, in which nothing comes: either it is given up, with status 3, or
with status 2 where a thread can't be made for what was refused of it, and nothing on standard output; or nothing
changes; and it ends.

`radlimitd run`, over a folder of its own, which is asked for a login and told of a session, again until it answers, and is
then stopped: either it is given up, with status 3, or with status 2 as above; or it answers both, and what was not
recorded for want of memory is told, and that this is over.

Anything else is wrong. A program that ends with status 3 says `no memory` on standard error, and with status 0 nothing.
With status 2 it says `input or output fault`, and only where a thread could not be made for what was refused of it: the
library counts the threads that were made.

`test_memory` compares by itself what is seen before and after a call that is refused, makes the call again, and prints
the same whichever single allocation is refused. `rt try` builds it without a proof, with checks of each access and each
sum, and runs it for each case. It refuses one allocation of a fixed number, so a case has so many allocations before its
work that the number is that of the one that is wanted. A run takes some 0.7 seconds of processor, nearly all of it in
`rt try`: so some are tried, of each work evenly spread, and all with `--every 1`. A kit whose `rt try` takes
`--fail-alloc 1..` tries the same by itself in the folder of `test_memory`.

usage: python3 -m tests.programs.refused-memory [--every COUNT] [--only-works] [SCRIPT]
COUNT: of the allocations of `test_memory` each so-many-th is tried, those of `EVERY` if not given; --only-works: no other
program is tried; SCRIPT: that of `radlimit replay`, examples/every-line.script if not given
"""

import argparse

import collections
import functools
import os
import re
import select
import subprocess
import sys
import tempfile
import time
from concurrent.futures import ThreadPoolExecutor

from tests.lib import served
from tools.build import repository
from tests.lib.served import free_ports

from tools.build.repository import TOP
REPLAY = [served.PROGRAM, "replay"]
CRATE = repository.folder_of("test_memory")
SCRIPT = os.path.join(TOP, "examples", "every-line.script")
SETTINGS = {"set", "client", "account"}
OF_SEVERAL_STEPS = {"on", "off", "tick"}
SERVE = [served.PROGRAM, "serve", os.path.join(TOP, "examples", "accounts.toml"), "127.0.0.1"]
GIVEN_UP = 3
PORT_TAKEN = NO_THREAD = 2
# a server whose port is taken ends sooner, and one that has no thread later, in seconds
TAKEN_TIME = 3
NO_END = "no end"
# of `test_memory`: how many allocations it makes before those that it is asked for, and a number beyond those of each work
BEFORE, LAST = 8, 3000
# behind how many of them those lie that are tried where nothing is said: the script is read before, which is tried of the
# first work alone, and of a shard the moves follow
FIRST = {"calls": 1, "saved": 140, "steps": 140, "shard": 215, "service": 140, "receivers": 140, "store": 140}
# how many allocations each work makes at most, and each so-many-th of them that is tried where nothing is said
MOST = {"calls": 500, "saved": 590, "steps": 325, "shard": 390, "service": 910, "receivers": 770, "store": 590}
EVERY = {"calls": 71, "saved": 71, "steps": 37, "shard": 1, "service": 23, "receivers": 37, "store": 17}
# what a program says on standard error, by its status, and what the library below adds to that
SAID = {0: "", GIVEN_UP: "no memory\n", NO_THREAD: "input or output fault\n"}
THREADS = re.compile(r"threads made: (\d+)\n\Z")
# the threads of a server beside its first
MADE = 2
# of a run, in seconds
MOST_TIME = 20

LIBRARY = r"""
#define _GNU_SOURCE
#include <dlfcn.h>
#include <errno.h>
#include <pthread.h>
#include <stdio.h>
#include <stdlib.h>
#include <sys/syscall.h>
#include <unistd.h>
extern void *__libc_malloc(size_t);
extern void *__libc_calloc(size_t, size_t);
extern void *__libc_realloc(void *, size_t);
extern void *__libc_memalign(size_t, size_t);
static _Atomic long calls, threads;
static long first = -1, last;
static long number(const char *name) {
    const char *text = getenv(name);
    return text ? atol(text) : 0;
}
static int is_refused(void) {
    if (first < 0) {
        first = number("FIRST");
        last = number("LAST");
    }
    long call = ++calls;
    if (call < first || last < call) return 0;
    errno = ENOMEM;
    return 1;
}
void *malloc(size_t size) { return is_refused() ? NULL : __libc_malloc(size); }
void *calloc(size_t count, size_t size) { return is_refused() ? NULL : __libc_calloc(count, size); }
void *realloc(void *old, size_t size) { return is_refused() ? NULL : __libc_realloc(old, size); }
void *aligned_alloc(size_t align, size_t size) { return is_refused() ? NULL : __libc_memalign(align, size); }
int posix_memalign(void **out, size_t align, size_t size) {
    *out = is_refused() ? NULL : __libc_memalign(align, size);
    return *out ? 0 : 12;
}
int pthread_create(pthread_t *thread, const pthread_attr_t *how, void *(*work)(void *), void *given) {
    int fault = ((__typeof__(&pthread_create))dlsym(RTLD_NEXT, "pthread_create"))(thread, how, work, given);
    threads += !fault;
    return fault;
}
static void tell(void) {
    const char *path = getenv("CALLS");
    long made = calls;
    FILE *file = path ? fopen(path, "w") : NULL;
    if (file) { fprintf(file, "%ld", made); fclose(file); }
    dprintf(STDERR_FILENO, "threads made: %ld\n", threads);
}
__attribute__((destructor)) static void end(void) { tell(); }
/* a program that can start threads ends by this call */
void _exit(int status) {
    tell();
    for (;;) syscall(SYS_exit_group, status);
}
"""

# how a run ended: its status, the lines on standard output, standard error, and the threads that were made
Ended = collections.namedtuple("Ended", ("status", "lines", "said", "threads"), defaults=(0,))


class Refuser:
    """Runs programs with some of their allocations refused."""

    # how many are refused behind the first
    MORE = 0, 1

    def __init__(self, folder):
        self.folder, self.library = folder, os.path.join(folder, "refuse.so")
        source = os.path.join(folder, "refuse.c")
        with open(source, "w", encoding="ascii") as file:
            file.write(LIBRARY)
        subprocess.run(["cc", "-O1", "-shared", "-fPIC", "-o", self.library, source], check=True)

    def run(self, command, text, first=0, last=0):
        """How a run ends whose allocations with these numbers are refused."""
        environment = {"LD_PRELOAD": self.library, "FIRST": str(first), "LAST": str(last)}
        try:
            run = subprocess.run(
                command, input=text, capture_output=True, env=environment, check=False, timeout=MOST_TIME
            )
        except subprocess.TimeoutExpired:
            return Ended(NO_END, [], "")
        said = run.stderr.decode()
        made = THREADS.search(said)
        threads = int(made[1]) if made else 0
        return Ended(run.returncode, run.stdout.decode().splitlines(), THREADS.sub("", said), threads)

    def allocations(self, command, text):
        """How many allocations a run makes."""
        path = os.path.join(self.folder, "calls")
        environment = {"LD_PRELOAD": self.library, "CALLS": path}
        none = subprocess.DEVNULL
        subprocess.run(command, input=text, stdout=none, stderr=none, env=environment, check=True)
        with open(path, encoding="ascii") as file:
            return int(file.read())

    def outcomes(self, command, text):
        """The numbers that were refused, and how each run ended."""
        count = self.allocations(command, text)
        spans = [(first, first + more) for more in self.MORE for first in range(1, count + 1)]
        # most of what a server does here is to wait for a second
        with ThreadPoolExecutor(4 * (os.cpu_count() or 1)) as pool:
            runs = pool.map(lambda span: self.run(command, text, *span), spans)
            return list(zip(spans, runs))

    def judged(self, judge, ended, refused):
        """What came of a run with so many allocations refused."""
        return judged(judge, ended, refused)

    def count(self, name, command, text, judge):
        """Refuses each allocation of a run, prints what came of it, and answers whether nothing was wrong."""
        results = []
        for (first, last), ended in self.outcomes(command, text):
            answer = self.judged(judge, ended, last + 1 - first)
            results.append((f"allocations {first} to {last} refused", ended, answer))
        return is_right(name, results)


def judged(judge, ended, refused=1):
    """What came of a run with so many allocations refused. It has status 2 only where a server's thread could not be
    made, or two where two allocations were refused."""
    made = ended.status != NO_THREAD or MADE - refused <= ended.threads < MADE
    return judge(ended.status, ended.lines) if made and SAID.get(ended.status) == ended.said else "wrong"


def is_right(name, results):
    """Prints what came of runs, and answers whether nothing was wrong."""
    found = collections.Counter(answer for _, _, answer in results)
    for what, ended, answer in results:
        if answer == "wrong":
            print(f"{name}, {what}: status {ended.status}, says {ended.said!r}", *ended.lines, sep="\n")
            break
    print(f"{name}: {found.total()} runs:", ", ".join(f"{times} {what}" for what, times in found.most_common()))
    return found["wrong"] == 0


class Server(Refuser):
    """Runs servers whose receivers take a turn each, in which nothing comes, each over two ports of its own. Where one is
    refused memory the other has a turn left, and fails for that alone."""

    TURNS = "1"

    def run(self, command, text, first=0, last=0):
        """How a run ends. It is tried again where another program took one of its ports."""
        for _ in range(3):
            began = time.monotonic()
            ended = super().run([*command, *free_ports(), self.TURNS], text, first, last)
            if ended.status != PORT_TAKEN or time.monotonic() - began > TAKEN_TIME:
                break
        return ended

    def allocations(self, command, text):
        """How many allocations a run makes."""
        return super().allocations([*command, *free_ports(), self.TURNS], text)


class Daemon(Refuser):
    """Runs servers that keep their history, each over a folder of its own, until they are stopped. What one has answered
    are its lines."""

    TOLD = (
        "not recorded, and so not answered: the disk is full or fails, or memory is refused\n", "recorded again\n"
    )
    LEFT = "old logs are not put away: no memory\n"
    ANSWERED = ["login answered", "start answered"]
    SECRET, PASSWORD = b"testing123", b"pw-common"
    MORE = (0,)

    def requests(self):
        """A login, and the start of another session."""
        names = served.attribute(1, b"nemo") + served.attribute(32, b"nas")
        yield 0, served.access_request(1, self.SECRET, names, bytes(16), self.PASSWORD)
        session = names + served.attribute(44, b"s1")
        yield 1, served.accounting_request(2, self.SECRET, served.START, session)

    def life(self, environment):
        """How a life ends."""
        with tempfile.TemporaryDirectory(dir=self.folder) as folder:
            clients, accounts = [(served.HOST, self.SECRET, False)], [("nemo", self.PASSWORD, 4, 1)]
            name, ports = os.path.join(folder, "accounts.toml"), free_ports()
            served.account_file(name, clients, accounts, shards=2, reserve=60, keep=60)
            file = served.daemon_file(folder, ports, 1)
            process = served.daemon(file, environment)
            lines = []
            if select.select([process.stderr], [], [], MOST_TIME)[0]:
                server = served.Repeater(list(self.requests()), self.SECRET)
                answers = server.ask(ports, process, MOST_TIME)
                server.close()
                lines = [self.ANSWERED[place] for place in sorted(answers)]
            return self.ended(file, process, lines)

    def ended(self, file, process, lines):
        """How a life ends that is stopped once it has told all that it has to tell."""
        said, until = "", time.monotonic() + MOST_TIME
        os.set_blocking(process.stderr.fileno(), False)
        while process.poll() is None and time.monotonic() < until:
            said += (process.stderr.read() or b"").decode()
            if said.count(self.TOLD[0]) == said.count(self.TOLD[1]):
                subprocess.run([served.DAEMON, "stop", file], capture_output=True, check=False)
            time.sleep(0.05)
        if process.poll() is None:
            process.kill()
            return Ended(NO_END, lines, said)
        said += (process.stderr.read() or b"").decode()
        made = THREADS.search(said)
        said = served.but_refusals(served.but_first_lines(THREADS.sub("", said)))
        said = re.sub(r"^(?:new history:|generation|stopped:) .*\n", "", said, flags=re.M)
        return Ended(process.wait(), lines, said, int(made[1]) if made else 0)

    def judged(self, judge, ended, refused):
        """A life answers both and is stopped, or has said why it ended: a thread is then missing, or memory."""
        if ended.status == 0:
            # it may be stopped before it tells that this is over
            return judge(ended) if ended.said in ("", self.TOLD[0], "".join(self.TOLD), self.LEFT) else "wrong"
        texts = {GIVEN_UP: "no memory\n", NO_THREAD: "no thread for each receiver\n"}
        return judge(ended) if ended.said == texts.get(ended.status) else "wrong"

    def judge(self, whole, ended):
        """What came of a life, beside one that was refused nothing."""
        if ended.status == GIVEN_UP:
            return "given up"
        if ended.status == NO_THREAD:
            return "without a thread" if ended.threads < whole.threads else "wrong"
        if ended.lines != whole.lines:
            return "wrong"
        return "told" if ended.said else "as ever"

    def run(self, command, text, first=0, last=0):
        return self.life({"LD_PRELOAD": self.library, "FIRST": str(first), "LAST": str(last)})

    def allocations(self, command, text):
        path = os.path.join(self.folder, "calls")
        self.life({"LD_PRELOAD": self.library, "CALLS": path})
        with open(path, encoding="ascii") as file:
            return int(file.read())


def judge_all_or_nothing(whole, status, lines):
    """What came of a run with memory refused that prints all, or nothing where it is given up."""
    if status == GIVEN_UP and not lines:
        return "given up"
    if status == NO_THREAD and not lines:
        return "without a thread"
    return "as ever" if (status, lines) == (0, whole) else "wrong"


def is_front(lines, whole):
    """Whether a run printed no more than the front of what it prints where nothing is refused."""
    return lines == whole[: len(lines)]


class Replay:
    """A script for `radlimit replay`, and what it prints."""

    def __init__(self, text):
        self.lines = text.decode("ascii").splitlines(keepends=True)
        self.verbs = [line.split(" ", 1)[0].strip() for line in self.lines]
        self.events = [
            at for at, verb in enumerate(self.verbs) if verb and verb[0] != "#" and verb not in SETTINGS
        ]
        self.whole = self.words()

    @functools.cache
    def words(self, *without):
        """What it prints without some of its events: the lines without their numbers, and the report without names."""
        out = {self.events[number] for number in without}
        text = "".join(line for at, line in enumerate(self.lines) if at not in out).encode()
        run = subprocess.run(REPLAY, input=text, capture_output=True, check=True)
        return unnumbered(run.stdout.decode().splitlines())

    def judge(self, status, lines):
        """What came of a replay with memory refused."""
        words = unnumbered(lines)
        if status == GIVEN_UP:
            return "given up" if not words else "wrong"
        if status != 0 or len(words) != len(self.whole):
            return "wrong"
        refused = [number for number, word in enumerate(words) if word == "refused"]
        verbs = {self.verbs[self.events[number]] for number in refused}
        if not verbs & OF_SEVERAL_STEPS:
            others = [word for number, word in enumerate(words) if number not in refused]
            if self.words(*refused) != others:
                return "wrong"
        return " and ".join(sorted(verbs)) + " refused" if verbs else "as ever"


def unnumbered(lines):
    """Lines without the first word of each."""
    return [line.split(" ", 1)[1] for line in lines]


class Sweep:
    """`test_memory` as `rt try` builds it once and runs it for each case, of which it refuses the allocation of one
    number. A case asks for so many allocations before its work that this is the one of the work's that is wanted."""

    CASE = re.compile(r"^case=(\w+-\d+) run=ended status=(\d+) ", re.M)

    def __init__(self, folder, every):
        self.folder, copy = os.path.join(folder, "cases"), os.path.join(folder, "copy")
        os.mkdir(self.folder)
        repository.lay_out(copy, ["test_memory"])
        self.crate = os.path.join(copy, "crates", "test_memory")
        sections = re.split(r"^== ", given_to_memory("stdout").decode(), flags=re.M)[1:]
        self.whole = {section.split("\n", 1)[0]: f"== {section}".splitlines() for section in sections}
        self.cases = [(work, number) for work in EVERY for number in self.numbers(work, every)]
        for work, number in self.cases:
            path = os.path.join(self.folder, f"{work}-{number}")
            with open(path, "wb") as file:
                file.write(given_to_memory("stdin"))
            with open(f"{path}.args", "w", encoding="ascii") as file:
                file.write(f"{work}\n{LAST - number}")

    @staticmethod
    def numbers(work, every):
        """The numbers of a work's allocations that are tried, and those before and behind them."""
        first, step = (2, every) if every else (FIRST[work] + 1, EVERY[work])
        return [0, 1, *range(first, MOST[work], step), LAST]

    def endings(self):
        """How each case ended, by its name."""
        words = ["rt", "try", "--fail-alloc", str(BEFORE + LAST), "--cases", self.folder]
        run = subprocess.run(words, cwd=self.crate, stdin=subprocess.DEVNULL, capture_output=True, text=True, check=False)
        parts = (part.splitlines() for part in re.split(r"^== (?=\w+-\d+$)", run.stdout, flags=re.M)[1:])
        printed = {lines[0]: lines[1:] for lines in parts}
        found = self.CASE.findall(run.stderr)
        if not found:
            print(run.stderr)
        return {name: Ended(int(status), printed.get(name, []), "") for name, status in found}

    def judge(self, work, number, ended):
        """What came of a work. With number 0 the last allocation before it is refused, and the last number is beyond all
        of its own."""
        if number == 0:
            return "given up before its work" if (ended.status, ended.lines) == (GIVEN_UP, []) else "wrong"
        last = ended.lines[-1] if ended.lines else ""
        if ended.status != 0 or ended.lines[:-1] != self.whole[work]:
            return "wrong"
        if number == LAST:
            return "after its work" if last.endswith(" left") and made(last) <= MOST[work] else "wrong"
        return "after its work" if last.endswith(" left") else last

    def is_right(self):
        """Prints what came of the cases, and answers whether nothing was wrong, and each ended."""
        endings, none, results = self.endings(), Ended(NO_END, [], ""), []
        for work, number in self.cases:
            ended = endings.get(f"{work}-{number}", none)
            results.append((f"{work}, allocation {number} refused", ended, self.judge(work, number, ended)))
            if number == LAST and ended.lines and ended.lines[-1].endswith(" left"):
                print(f"{work}: {made(ended.lines[-1])} allocations")
        return is_right("test_memory", results)


def made(line):
    """How many allocations a work made behind which so many were left."""
    return LAST - 1 - int(line.split()[0])


def given_to_memory(name):
    """What a file of the crate of `test_memory` has."""
    with open(os.path.join(CRATE, name), "rb") as file:
        return file.read()


def arguments():
    """What the command line gives."""
    parser = argparse.ArgumentParser(
        usage="python3 -m tests.programs.refused-memory [--every COUNT] [--only-works] [SCRIPT]"
    )
    parser.add_argument("--every", type=int)
    parser.add_argument("--only-works", action="store_true")
    parser.add_argument("script", nargs="?", default=SCRIPT)
    return parser.parse_args()


def refuse_each(refuser, script):
    """Refuses each allocation of each proved program, and gives what was right."""
    server, daemon = Server(refuser.folder), Daemon(refuser.folder)
    serving = functools.partial(judge_all_or_nothing, server.run(SERVE, b"").lines)
    keeping = functools.partial(daemon.judge, daemon.run(None, b""))
    return [
        refuser.count("replay", REPLAY, script, Replay(script).judge),
        server.count("serve", SERVE, b"", serving),
        daemon.count("daemon", None, b"", keeping),
    ]


def verdict(right):
    """Says how many works were right, and gives the exit status."""
    print(f"{right.count(True)} passed, {right.count(False)} failed")
    return int(not all(right))


def main():
    given = arguments()
    with tempfile.TemporaryDirectory() as folder, ThreadPoolExecutor(1) as pool:
        sweep = Sweep(folder, given.every)
        if given.only_works:
            return verdict([sweep.is_right()])
        with open(given.script, "rb") as file:
            script = file.read()
        # while `rt try` compiles, the others are run
        swept = pool.submit(sweep.is_right)
        right = refuse_each(Refuser(folder), script)
        return verdict([*right, swept.result()])


if __name__ == "__main__":
    sys.exit(main())
