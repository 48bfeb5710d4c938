"""UDP ports that nobody has, for servers that scripts of tests/programs start. It needs no program of the repository."""

import itertools
import os
import random
from collections.abc import Iterable

# the UDP ports that servers are given, from one and below another
FIRST_PORT, PORTS_END = map(int, os.environ.get("PORTS", "20000-32000").split("-"))
UNUSED = itertools.cycle(random.sample(range(FIRST_PORT, PORTS_END), PORTS_END - FIRST_PORT))


def udp_sockets() -> dict[int, tuple[int, int]]:
    """Of each UDP port that is bound: the octets that wait at it, and the datagrams that found no room."""
    found = {}
    with open("/proc/net/udp", encoding="ascii") as table:
        for line in table.readlines()[1:]:
            words = line.split()
            found[int(words[1].split(":")[1], 16)] = int(words[4].split(":")[1], 16), int(words[12])
    return found


def are_bound(ports: Iterable[int | str]) -> bool:
    """Whether each of these UDP ports is bound."""
    found = udp_sockets()
    return all(int(port) in found for port in ports)


def free_ports() -> list[str]:
    """Two UDP ports that nobody has, that the system gives nobody by itself, and that come again only after all others.
    No socket tries them: a process that another thread starts would hold it for a while."""
    found: list[str] = []
    while len(found) < 2:
        port = next(UNUSED)
        if port not in udp_sockets():
            found.append(str(port))
    return found
