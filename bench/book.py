"""Times and weighs one account's book, and fails where an aim is missed.

The program bench_time hands a book n events, and then 2n: what the second half takes is the
time of an event. Each is run five times, and the least processor time counts. Of all but ticks the time to make the
events is taken off. Beside an Interim-Update of each link in turn it times one of each link out of turn, a Stop of a
link with the Start of another, and an ask with the Start that takes its link and the Stop of that; and where each link
has a station of its own an Interim-Update, an ask of a device that dials again, and asks that are refused, of a station
that no link has and without one; and where all links have one station an ask of that, which looks at each of them and
is refused, since no place is free without one link of a whole bundle. The aims:

- an Interim-Update of one of 1,024 open links (64 places, 16 ports) takes at most 4 times that of a book with
  a single link, with all links at one access server and with each place at one of its own;
- an ask of a device that dials again, beside 1,008 links with stations of their own, takes at most 4 times that beside
  none; and so an ask of the one station of 1,024 links;
- a tick takes as long with 1,024 links as with one (at most 1.5 times, or 20 nanoseconds more: so far may two
  runs of one program lie apart);
- a million events of every kind never have more memory resident than a thousand (at most 256 kB more: an octet that was
  lost at each would be a megabyte).

And it says how many octets an account takes, and a link: those that the C library gave the proved program `radlimit`,
counted by a library that stands before it, which wants a C compiler.

usage: python3 -m bench.book
"""

import os
import resource
import shutil
import subprocess
import sys
import tempfile

from tools.build.programs import path_of

RUNS = 5
MOST_INTERIM_RATIO = 4
MOST_RETURN_RATIO = 4
MOST_SHARED_RATIO = 4
MOST_TICK_RATIO = 1.5
SAME_SECONDS = 20e-9
SAME_OCTETS = 256 * 1024
TURNS = {"interims": 200_000, "strides": 200_000, "changes": 200_000, "takes": 300_000, "ticks": 800_000}
TURNS |= {"stationed": 200_000, "returns": 200_000, "misses": 200_000, "asks": 200_000, "shared": 2_000}
MAKING_TURNS = 800_000
BOOKS = 1_000
FEW_EVENTS, MANY_EVENTS = 1_000, 1_000_000


PROGRAM = path_of("bench_time")

# The words PLACES PORTS LINKS SERVERS of a book.
ONE_LINK = (64, 16, 1, 1)
ALL_LINKS = (64, 16, 1_024, 1)
ALL_LINKS_APART = (64, 16, 1_024, 64)

# A book where an ask finds a place free: with no other link, and with 63 places full.
NO_LINK = (64, 16, 0, 1)
ALL_BUT_A_PLACE = (64, 16, 1_008, 1)

LIBRARY = r"""
#include <malloc.h>
#include <stdio.h>
#include <stdlib.h>
#include <sys/syscall.h>
#include <unistd.h>
extern void *__libc_malloc(size_t);
extern void *__libc_calloc(size_t, size_t);
extern void *__libc_realloc(void *, size_t);
extern void *__libc_memalign(size_t, size_t);
extern void __libc_free(void *);
static long used, most;
static void *taken(void *block) {
    used += block ? malloc_usable_size(block) : 0;
    most = used > most ? used : most;
    return block;
}
void *malloc(size_t size) { return taken(__libc_malloc(size)); }
void *calloc(size_t count, size_t size) { return taken(__libc_calloc(count, size)); }
void *aligned_alloc(size_t align, size_t size) { return taken(__libc_memalign(align, size)); }
int posix_memalign(void **out, size_t align, size_t size) {
    *out = taken(__libc_memalign(align, size));
    return *out ? 0 : 12;
}
void *realloc(void *old, size_t size) {
    long before = old ? malloc_usable_size(old) : 0;
    void *block = __libc_realloc(old, size);
    if (block || size == 0) used -= before;
    return taken(block);
}
void free(void *block) {
    used -= block ? malloc_usable_size(block) : 0;
    __libc_free(block);
}
// a program of Rattle's ends so
void _exit(int status) {
    long told = most;
    const char *path = getenv("MOST");
    FILE *file = path ? fopen(path, "w") : NULL;
    if (file) { fprintf(file, "%ld", told); fclose(file); }
    for (;;) syscall(SYS_exit_group, status);
}
"""


def run(work, size, times, **environment):
    """Runs the program once."""
    words = ["book", work, *map(str, size), str(times)]
    subprocess.run([PROGRAM, *words], stdout=subprocess.DEVNULL, env=environment, check=True)


def processor_seconds():
    """The processor time that runs of the program took so far."""
    used = resource.getrusage(resource.RUSAGE_CHILDREN)
    return used.ru_utime + used.ru_stime


def seconds(work, size, times):
    """The least processor time of a run: other work on the machine changes it little."""
    taken = []
    for _ in range(RUNS):
        start = processor_seconds()
        run(work, size, times)
        taken.append(processor_seconds() - start)
    return min(taken)


def seconds_of_one(work, size):
    """The time of one turn of a work."""
    turns = TURNS.get(work, MAKING_TURNS)
    return max(seconds(work, size, 2 * turns) - seconds(work, size, turns), 0) / turns


def seconds_and_making(work, size):
    """The time of one event of a work, and that of making it."""
    making = seconds_of_one(f"making-{work}", size)
    return max(seconds_of_one(work, size) - making, 1e-9), making


def told(name, took):
    """Prints a time."""
    print(f"{name:66}{took * 1e9:10.0f} ns")


def interims():
    """Whether an Interim-Update of a full book takes at most 4 times that of a book with one link."""
    took = []
    places = {ONE_LINK: "1 link", ALL_LINKS: "1,024 links", ALL_LINKS_APART: "1,024 links at 64 access servers"}
    for size, name in places.items():
        event, making = seconds_and_making("interims", size)
        took.append(event)
        told(f"an Interim-Update, {name}", event)
        told("  and to make its event", making)
    ratio = max(took[1:]) / took[0]
    print(f"ratio: {ratio:.2f} (at most {MOST_INTERIM_RATIO})")
    return ratio <= MOST_INTERIM_RATIO


def others():
    """The times of what comes in another order: for these there is no aim."""
    places = {ONE_LINK: "1 link", ALL_LINKS: "1,024 links", ALL_LINKS_APART: "1,024 links at 64 access servers"}
    for size, name in places.items():
        told(f"an Interim-Update out of turn, {name}", seconds_and_making("strides", size)[0])
    for size, name in places.items():
        told(f"a Stop out of turn and a Start, {name}", 2 * seconds_and_making("changes", size)[0])
    for size, name in {NO_LINK: "no other link", ALL_BUT_A_PLACE: "1,008 other links"}.items():
        told(f"an ask, its Start and its Stop, {name}", 3 * seconds_and_making("takes", size)[0])


def returns():
    """Whether a link is found by its station in a full book as in one with no other link."""
    for size, name in {ONE_LINK: "1 link", ALL_LINKS: "1,024 links"}.items():
        told(f"an Interim-Update with a station, {name}", seconds_and_making("stationed", size)[0])
    took = []
    for size, name in {NO_LINK: "no other link", ALL_BUT_A_PLACE: "1,008 other links"}.items():
        took.append(seconds_and_making("returns", size)[0])
        told(f"an ask of a device that dials again, {name}", took[-1])
    for work, name in {"misses": "of another station", "asks": "without a station"}.items():
        told(f"an ask {name} that is refused, 1,024 links", seconds_and_making(work, ALL_LINKS)[0])
    ratio = took[1] / took[0]
    print(f"ratio: {ratio:.2f} (at most {MOST_RETURN_RATIO})")
    return ratio <= MOST_RETURN_RATIO


def shared():
    """Whether the link touched longest ago is found among 1,024 of one station as where no other link is."""
    one, all_links = seconds_and_making("returns", NO_LINK)[0], seconds_and_making("shared", ALL_LINKS)[0]
    told("an ask of the one station of 1,024 links, which is refused", all_links)
    ratio = all_links / one
    print(f"ratio to that of a device that dials again, no other link: {ratio:.2f} (at most {MOST_SHARED_RATIO})")
    return ratio <= MOST_SHARED_RATIO


def ticks():
    """Whether a tick takes as long at a full book as at one with a single link."""
    one, all_links = seconds_of_one("ticks", ONE_LINK), seconds_of_one("ticks", ALL_LINKS)
    told("a tick, 1 link", one)
    told("a tick, 1,024 links", all_links)
    return all_links <= max(one * MOST_TICK_RATIO, one + SAME_SECONDS)


def most_resident(times):
    """The most octets that are resident while a book is handed so many events of every kind."""
    words = [PROGRAM, "book", "mixed", *map(str, ONE_LINK), str(times)]
    # what is freed can be taken again at once
    environment = os.environ | {"ASAN_OPTIONS": "quarantine_size_mb=0"}
    with subprocess.Popen(words, stdout=subprocess.DEVNULL, env=environment) as process:
        _, status, used = os.wait4(process.pid, 0)
        process.returncode = os.waitstatus_to_exitcode(status)
    if process.returncode != 0:
        sys.exit(f"{' '.join(words)} ended with {process.returncode}")
    return 1024 * used.ru_maxrss


def most_octets(folder, library, places, ports, accounts):
    """The most octets that a replay of a script with so many accounts has in use at once."""
    path = os.path.join(folder, "most")
    script = "client 192.0.2.1 secret\n" + "".join(
        f"account {number:04} word {places} {ports}\n" for number in range(accounts)
    )
    environment = {"LD_PRELOAD": library, "MOST": path}
    subprocess.run(
        [path_of("rsl_app"), "replay"], input=script, stdout=subprocess.DEVNULL, env=environment, text=True, check=True
    )
    with open(path, encoding="ascii") as file:
        return int(file.read())


def memory():
    """Whether a million events leave a book's memory as it was."""
    few, many = most_resident(FEW_EVENTS), most_resident(MANY_EVENTS)
    print(f"octets resident at most, {FEW_EVENTS:,} events: {few:,}; {MANY_EVENTS:,} events: {many:,}")
    return many <= few + SAME_OCTETS


def sizes():
    """What an account takes, and a link. The program that is asked has to be a proved one: the other has an allocator of
    its own, which the library does not stand before."""
    with tempfile.TemporaryDirectory() as folder:
        source, library = os.path.join(folder, "count.c"), os.path.join(folder, "count.so")
        with open(source, "w", encoding="ascii") as file:
            file.write(LIBRARY)
        subprocess.run(["cc", "-O1", "-shared", "-fPIC", "-o", library, source], check=True)
        found = []
        for places, ports, name in ((1, 1, "1 link"), (64, 16, "1,024 links")):
            half, whole = (most_octets(folder, library, places, ports, accounts) for accounts in (BOOKS, 2 * BOOKS))
            found.append((whole - half) / BOOKS)
            print(f"octets of an account of {name}, its line of a script among them: {found[-1]:,.0f}")
    print(f"octets of each further link: {(found[1] - found[0]) / 1_023:,.1f}")


def main():
    reached = [interims(), returns(), shared(), ticks(), memory()]
    others()
    if shutil.which("cc"):
        sizes()
    else:
        print("there is no C compiler here, so no octets were counted")
    for name, is_reached in zip(("interims", "returns", "shared", "ticks", "memory"), reached):
        print(f"{name}: {'as it must be' if is_reached else 'MISSED'}")
    return 0 if all(reached) else 1


if __name__ == "__main__":
    sys.exit(main())
