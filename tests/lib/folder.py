"""The files of a state folder, as docs/FOLDER.md has them, written apart from the server."""

import hashlib
from collections.abc import Sequence


def number(value: int) -> bytes:
    """A number, in as few octets as it takes."""
    if value < 253:
        return bytes([value])
    mark, size = next((mark, size) for mark, size in ((253, 2), (254, 4), (255, 8)) if value < 1 << 8 * size)
    return bytes([mark]) + value.to_bytes(size, "big")


def string(octets: bytes) -> bytes:
    """A string of at most 253 octets."""
    return bytes([len(octets)]) + octets


def option(octets: bytes | None) -> bytes:
    """A string, if there is one."""
    return b"\x00" if octets is None else b"\x01" + string(octets)


def listed(values: list[bytes]) -> bytes:
    """A list of values that are spelled already."""
    return number(len(values)) + b"".join(values)


def frame(payload: bytes) -> bytes:
    """A frame: the length, the MD5 digest and the payload."""
    return len(payload).to_bytes(4, "big") + hashlib.md5(payload).digest() + payload


# reserve, live, grace, closed and keep, in seconds
TIMES = 60, 900, 900, 3600, 10


def table(accounts: Sequence[tuple[bytes, int, int]], clients: list[str], times: tuple[int, ...] = TIMES) -> bytes:
    """A table: accounts are names with places and ports, clients addresses."""
    rows = [string(name) + b"".join(map(number, (places, ports, *times))) for name, places, ports in accounts]
    addresses = [bytes(map(int, address.split("."))) for address in clients]
    return listed(rows) + listed(addresses)


def front(generation: int, octets: bytes, boot: int, lines: int = 0, table_number: int = 1) -> bytes:
    """The first payload of a generation: its header, and the octets of the table, which has this number."""
    return bytes([3, 1]) + b"".join(map(number, (generation, table_number, boot, lines))) + octets


def former_table(octets: bytes, boot: int, shards: int) -> bytes:
    """The file of an era of format 1 or 2, which has these octets of a table."""
    return number(boot) + number(shards) + octets


def former_header(form: int, era: int, generation: int, octets: bytes, lines: int = 0) -> bytes:
    """The header of a generation in format 1 or 2. The file of its era has these octets."""
    return bytes([form, 1]) + number(era) + number(generation) + hashlib.md5(octets).digest() + number(lines)


def new_books(accounts: int) -> bytes:
    """A snapshot of books that have had no event."""
    return listed([bytes(6)] * accounts)


def nas(client: int, identifier: bytes) -> bytes:
    """An access server with a NAS-Identifier."""
    return number(client) + b"\x00" + string(identifier)


def stationed(tag: int, octets: bytes, station: bytes | None) -> bytes:
    """A move with this tag and these octets; of a station it has the tag after 6 and the station behind."""
    return bytes([tag]) + octets if station is None else bytes([tag + 6]) + octets + string(station)


def ask(
    moment: int, account: int, server: bytes, source: str, port: int, identifier: int, authenticator: bytes,
    station: bytes | None = None,
) -> bytes:
    """An Access-Request with the right password."""
    key = bytes(map(int, source.split("."))) + port.to_bytes(2, "big") + bytes([identifier]) + authenticator
    return stationed(1, number(moment) + number(account) + key + server, station)


def alive(
    moment: int, account: int, server: bytes, session: bytes, bundle: bytes | None = None, accept: int | None = None,
    station: bytes | None = None,
) -> bytes:
    """A Start or an Interim-Update."""
    reserved = b"\x00" if accept is None else b"\x01" + number(accept)
    octets = number(moment) + number(account) + server + string(session) + option(bundle) + reserved
    return stationed(2, octets, station)


def stop(moment: int, account: int, server: bytes, session: bytes) -> bytes:
    """A Stop."""
    return b"\x03" + number(moment) + number(account) + server + string(session)


def restart(moment: int, server: bytes, delay: int = 0) -> bytes:
    """An access server restarts, and says so this many seconds late."""
    octets = number(moment) + server
    return b"\x09" + octets + number(delay) if delay else b"\x04" + octets


def tick(moment: int) -> bytes:
    """A tick."""
    return b"\x05" + number(moment)
