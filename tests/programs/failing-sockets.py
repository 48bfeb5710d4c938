"""Has calls of `radlimit serve` to the system fail, one after the other, and looks at how it goes on or ends.

Where a receive fails, at either port, what came before is answered, and the server ends with status 2 and prints
nothing; one that is only interrupted, shall come again, or is refused memory, is no failure. Where a send fails the
server goes on, what the request did stands, and its answer counts as unsent. Where a socket can't be had, bound or
set, the clock can't be read at the start, or a write fails, the status is 2, and 1 where the account file can't be
read. Where a thread can't be made the status is 2 too, and nothing is answered. No run may take over ten seconds.

It wants Linux, the built program and a C compiler, for a library that stands before the C library
(tests/lib/failing.c).

usage: python3 -m tests.programs.failing-sockets
"""

import contextlib
import errno
import os
import socket
import tempfile
from concurrent.futures import ThreadPoolExecutor

from tests.lib import served

SECRET, PASSWORD = b"testing123", b"pw-common"
REQUESTS = 4
PLACES = 8
SECONDS = served.patience(60)  # that a server may take; one that can make no thread takes six
FAULT = (2, "", "input or output fault\n")
UNREADABLE = (1, "", "bad file: unreadable\n")
PORTS = ["auth", "acct"]
ERRORS = [errno.EIO, errno.ECONNREFUSED, errno.EBADF, errno.ENETDOWN]
ERRORS_OF_SENDS = [errno.EPERM, errno.EINVAL, errno.ENOBUFS, errno.ENETUNREACH]
ERRORS_OF_SENDS += [errno.EMSGSIZE, errno.EAGAIN, errno.EINTR]
NO_ERRORS_OF_RECEIVES = [errno.EAGAIN, errno.EINTR, errno.ENOMEM]


def account_file(folder):
    """An account file, and its name. One account is asked for, the other's sessions start."""
    path = os.path.join(folder, "accounts.toml")
    accounts = [(name, PASSWORD, PLACES, 1) for name in PORTS]
    return served.account_file(path, [(served.HOST, SECRET, False)], accounts, shards=2, reserve=60, keep=1)


def requests_to(port):
    """What is asked of a port."""
    name = served.attribute(1, port.encode())
    for number in range(REQUESTS):
        if port == "auth":
            yield served.access_request(number, SECRET, name, bytes([number]) * 16, PASSWORD)
        else:
            session = served.attribute(44, b"s%d" % number)
            yield served.accounting_request(number, SECRET, served.START, name + session)


def asking(port, number):
    """A socket that has sent all that is asked of a port, unless the server has ended before."""
    one = socket.socket(socket.AF_INET, socket.SOCK_DGRAM)
    one.connect((served.HOST, int(number)))
    one.setblocking(False)
    with contextlib.suppress(ConnectionRefusedError):
        for request in requests_to(port):
            one.send(request)
    return one


def answered(port, one):
    """Which of the requests that a socket has sent were rightly answered."""
    replies = {}
    with one, contextlib.suppress(BlockingIOError):
        while True:
            # that a request came after the server's end is told before the answers
            with contextlib.suppress(ConnectionRefusedError):
                reply = one.recv(4096)
                replies[reply[1]] = reply
    found = enumerate(requests_to(port))
    return [number in replies and served.is_answer(replies[number], request, SECRET) for number, request in found]


def printed(unsent=("", 0), received=REQUESTS):
    """What is printed where so many requests came to each port, and at one of them answers were unsent."""
    text = ""
    for port in PORTS:
        lost = unsent[1] if port == unsent[0] else 0
        text += f"{port} received {received} answered {received - lost} dropped 0 refused 0 unsent {lost}\n"
    text += "name                   places     held reserved     live    stale     over\n"
    for name, reserved, live in (("auth", received, 0), ("acct", 0, received)):
        columns = [PLACES, received, reserved, live, 0, 0]
        text += f"{name:<20}" + "".join(f" {column:>8}" for column in columns) + "\n"
    return text


def all_but(numbers):
    """Which requests are answered where these are not."""
    return [number not in numbers for number in range(1, REQUESTS + 1)]


class Bench:
    """The account file, and the library that has calls fail."""

    def __init__(self, folder):
        self.file = account_file(folder)
        self.library = served.built(folder, "failing", "-shared", "-fPIC")

    def server(self, turns, call, nth, error, port=None):
        """A server whose call fails, at one of its ports or at whatever it is called on."""

        def environment(numbers):
            number = numbers[PORTS.index(port)] if port else "0"
            return {"LD_PRELOAD": self.library, "CALL": call, "NTH": str(nth), "ERROR": str(error), "PORT": number}

        return served.Server(self.file, turns, environment)

    def unasked(self, call, nth, error):
        """How a server ends that nobody asks, and whose turns are none."""
        with self.server(0, call, nth, error) as server:
            return server.ended(SECONDS)

    def run(self, turns, port, call, nth, error):
        """Which requests to both ports are answered where a call fails, and how the server ends."""
        with self.server(turns, call, nth, error, port) as server:
            sockets = [asking(*one) for one in zip(PORTS, server.ports)]
            ended = server.ended(SECONDS)
        return dict(zip(PORTS, map(answered, PORTS, sockets))), ended

    def failed_thread(self, nth):
        """The same where a thread can't be made."""
        return self.run(REQUESTS, None, "pthread_create", nth, errno.EAGAIN)

    def failed_receive(self, port, nth, error):
        """Of a receive that fails: which of the port's requests are answered, and how the server ends."""
        found, ended = self.run(2 * REQUESTS, port, "recvfrom", nth, error)
        return found[port], ended

    def passing_receive(self, port, nth, error):
        """The same of one that is no failure. It takes a turn."""
        return self.run(REQUESTS + 1, port, "recvfrom", nth, error)

    def failed_send(self, port, nth, error):
        """The same of a send that fails."""
        return self.run(REQUESTS, port, "sendto", nth, error)


def cases(bench):
    """What is tried: its name, the call that tries it, and what should come of it."""
    every = {port: all_but([]) for port in PORTS}
    for port in PORTS:
        for nth in range(1, REQUESTS + 2):
            error = ERRORS[nth % len(ERRORS)]
            expected = [number < nth for number in range(1, REQUESTS + 1)], FAULT
            yield f"{port}: receive {nth} fails", (bench.failed_receive, port, nth, error), expected
        for nth in range(1, REQUESTS + 2):
            for error in NO_ERRORS_OF_RECEIVES:
                name = f"{port}: receive {nth} gives {errno.errorcode[error]}"
                # the other port has a turn more, in which nothing comes
                yield name, (bench.passing_receive, port, nth, error), (every, (0, printed(), ""))
        for nth in range(1, REQUESTS + 1):
            expected = every | {port: all_but([nth])}, (0, printed((port, 1)), "")
            error = ERRORS_OF_SENDS[nth % len(ERRORS_OF_SENDS)]
            yield f"{port}: send {nth} fails", (bench.failed_send, port, nth, error), expected
        for error in ERRORS_OF_SENDS:
            expected = every | {port: all_but(range(1, REQUESTS + 1))}, (0, printed((port, REQUESTS)), "")
            name = f"{port}: every send gives {errno.errorcode[error]}"
            yield name, (bench.failed_send, port, 0, error), expected
    # no port is served without the other, nor without ticks
    none = {port: all_but(range(1, REQUESTS + 1)) for port in PORTS}
    for nth in (0, 1, 2):
        yield f"thread {nth or 'of any number'} fails", (bench.failed_thread, nth), (none, FAULT)
    yield from cases_of_none(bench)


def cases_of_none(bench):
    """The same of servers that nobody asks."""
    nothing = 0, printed(received=0), ""
    for nth in (1, 2):
        for call, error in (("socket", errno.EMFILE), ("bind", errno.EACCES), ("setsockopt", errno.EINVAL)):
            yield f"{call} {nth} fails", (bench.unasked, call, nth, error), FAULT
        yield f"read {nth} of the file fails", (bench.unasked, "read", nth, errno.EIO), UNREADABLE
        yield f"read {nth} of the file is interrupted", (bench.unasked, "read", nth, errno.EINTR), nothing
        yield f"write {nth} is interrupted", (bench.unasked, "write", nth, errno.EINTR), nothing
        yield f"thread {nth} of no work fails", (bench.unasked, "pthread_create", nth, errno.EAGAIN), FAULT
    yield "the clock fails", (bench.unasked, "clock_gettime", 0, errno.EINVAL), FAULT
    yield "the clock fails once", (bench.unasked, "clock_gettime", 2, errno.EINVAL), nothing
    yield "a write fails", (bench.unasked, "write", 1, errno.ENOSPC), FAULT


def main():
    with tempfile.TemporaryDirectory() as folder, ThreadPoolExecutor(16) as pool:
        rows = list(cases(Bench(folder)))
        found = pool.map(lambda row: row[1][0](*row[1][1:]), rows)
        served.verdict([(name, given, expected) for (name, _, expected), given in zip(rows, found)])


main()
