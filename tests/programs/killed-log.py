"""Has a program keep a log in a file and kills it, as many times as one asks for: after each life everything that was
told as written is found in its place, and at most one payload more. Then tears the end of a file of five frames, at
each length, and puts zeros, random octets or later frames behind it: what the program reads and cuts off is what a
reader written here says.

usage: python3 -m tests.programs.killed-log [LIVES]
"""

import contextlib
import hashlib
import os
import random
import subprocess
import sys
import tempfile
import time
from concurrent.futures import ThreadPoolExecutor

from tools.build.programs import path_of, patience

LIVES = 300
SIZES = (1, 7, 64, 500)  # numbers of a payload
COUNT = 1_000_000  # payloads of a life, of which it never makes all
LIFE = (0.005, 0.06)  # seconds after which it is killed
FRAMES = 5
NUMBERS = 7  # of a frame of the file that is torn
WIDTH = 8  # octets of a number
HEAD = 20  # octets of a frame before its payload
MOST_JUNK = 60


SECONDS = patience(60)

PROGRAM = path_of("test_log")


def frame(payload):
    """The frame of a payload."""
    return len(payload).to_bytes(4, "big") + hashlib.md5(payload).digest() + payload


def payload_of(first, count):
    """The octets of so many numbers."""
    return b"".join(number.to_bytes(WIDTH, "big") for number in range(first, first + count))


def block_at(octets, at):
    """The end of what has the shape of a frame there, and whether it is one; None where nothing has."""
    if len(octets) - at < HEAD:
        return None
    end = at + HEAD + int.from_bytes(octets[at : at + 4], "big")
    if end > len(octets):
        return None
    return end, hashlib.md5(octets[at + HEAD : end]).digest() == octets[at + 4 : at + HEAD]


def read(octets):
    """The payloads of a file, where its frames end, and whether a frame stands behind a spoilt one."""
    payloads, at = [], 0
    while (found := block_at(octets, at)) and found[1]:
        payloads.append(octets[at + HEAD : found[0]])
        at = found[0]
    end = at
    while (found := block_at(octets, at)) and not found[1]:
        at = found[0]
    return payloads, end, found is not None


def numbers_of(path):
    """How many numbers the frames of a file have. They count up from 0, and nothing is damaged. A file is not there before
    the first life has opened it, and has none then."""
    octets = b""
    with contextlib.suppress(FileNotFoundError), open(path, "rb") as file:
        octets = file.read()
    payloads, end, damaged = read(octets)
    joined = b"".join(payloads)
    if damaged or joined != payload_of(0, len(joined) // WIDTH):
        sys.exit(f"the log is damaged or out of order, at {end}")
    return len(joined) // WIDTH, len(octets) - end


def opened(path):
    """The status of the program that opens a log, and what it prints."""
    run = subprocess.run([PROGRAM, path], capture_output=True, text=True, check=False, timeout=SECONDS)
    return run.returncode, run.stdout + run.stderr


def lived(path, way, size, seconds):
    """The numbers that a life told, the last one whole, before it was killed."""
    words = [PROGRAM, path, way, str(COUNT), str(size)]
    with subprocess.Popen(words, stdout=subprocess.PIPE, stderr=subprocess.STDOUT, text=True) as run:
        time.sleep(seconds)
        run.kill()
        printed = run.stdout.read()
    # what stands behind the last end of line was not told whole
    return printed.split("\n")[:-1]


def one_life(path, before, chance):
    """The numbers that a log has after a life more, and what was found in it: payloads that were not told, and torn
    octets."""
    way, size = chance.choice(["record", "write"]), chance.choice(SIZES)
    lines = lived(path, way, size, chance.uniform(*LIFE))
    if lines and lines[0] != f"found {before} torn 0":
        sys.exit(f"a life began with: {lines[0]}, and not with {before} numbers")
    told = int(lines[-1]) if len(lines) > 1 else before
    found, torn = numbers_of(path)
    if not told <= found <= told + size:
        sys.exit(f"{told} numbers were told and {found} found, after a life of {size} a payload by {way}")
    answer = opened(path)
    if answer != (0, f"found {found} torn {torn}\n"):
        sys.exit(f"a log of {found} numbers and {torn} torn octets is read so: {answer}")
    return found, (found - told) // size, torn


def kill(folder, lives, chance):
    """So many lives of one log."""
    path = os.path.join(folder, "killed")
    found, more, cut = 0, 0, 0
    for _ in range(lives):
        found, untold, torn = one_life(path, found, chance)
        more += untold
        cut += int(torn > 0)
    print(f"lives {lives} numbers {found} payloads untold {more} ends torn {cut}")


def torn_files(whole, chance):
    """A file that is cut at each length, with nothing, zeros, random octets or its later octets behind the cut."""
    for length in range(len(whole) + 1):
        yield whole[:length]
        yield whole[:length] + bytes(2 * HEAD)
        yield whole[:length] + chance.randbytes(chance.randrange(1, MOST_JUNK))
        yield whole[:length] + whole[length + 1 : length + MOST_JUNK]
        yield whole[:length] + whole[length + 1 :]


def spoilt_files(whole):
    """A file of which each octet is another."""
    for at in range(len(whole)):
        yield whole[:at] + bytes([whole[at] ^ 0x10]) + whole[at + 1 :]


def tried(path, octets):
    """Whether a file was damaged; what the program reads of it, and leaves, is as the reader says."""
    with open(path, "wb") as file:
        file.write(octets)
    payloads, end, damaged = read(octets)
    joined = b"".join(payloads)
    count = -(-len(joined) // WIDTH)
    order = "" if joined == payload_of(0, count) else " out of order"
    expected = (1, f"{end}: damaged\n") if damaged else (0, f"found {count} torn {len(octets) - end}{order}\n")
    left = octets if damaged else octets[:end]
    answer = opened(path)
    with open(path, "rb") as file:
        found = file.read()
    if answer != expected or found != left:
        sys.exit(f"a file is read so: {answer}, and not so: {expected}; {len(found)} octets are left: {octets.hex()}")
    return damaged


def tear(folder, chance):
    """Each torn or spoilt file: how many there are."""
    whole = b"".join(frame(payload_of(NUMBERS * number, NUMBERS)) for number in range(FRAMES))
    files = [*torn_files(whole, chance), *spoilt_files(whole)]
    paths = [os.path.join(folder, f"torn-{number}") for number in range(len(files))]
    with ThreadPoolExecutor(os.cpu_count()) as pool:
        damaged = list(pool.map(tried, paths, files))
    print(f"files {len(damaged)} damaged {sum(damaged)}, all read as a reader of their own says")
    return len(damaged)


def main():
    match sys.argv[1:]:
        case []:
            lives = LIVES
        case [word] if word.isdigit():
            lives = int(word)
        case _:
            sys.exit(__doc__)
    chance = random.Random(1)
    with tempfile.TemporaryDirectory() as folder:
        kill(folder, lives, chance)
        files = tear(folder, chance)
    print(f"{lives + files} passed, 0 failed")


if __name__ == "__main__":
    main()
