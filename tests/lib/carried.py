"""What scripts of tests/programs share that change account files: books that are carried over, written apart from the
server, from docs/FOLDER.md ("A changed account file") and docs/SESSION-RULE.md alone."""

from collections.abc import Callable, Iterable
from typing import Any

from tests.lib import folder as state, history

# an access server: its client, and its name if it has one
Server = tuple[Any, bytes | None]
# what has a link: a session, or an accept number
Holder = bytes | int
Key = Any
Link = tuple[Server, Holder, bytes | None, int, int, bytes | None]
Ask = tuple[Server, Key, int | None, int, bool]
Stop = tuple[Server, bytes, int, bool]


def places(links: list[Link], ports: int) -> int:
    """The places of links: one for each without a bundle, and of a bundle one for as many links as there are ports."""
    members = [(server, bundle) for server, _holder, bundle, *_ in links if bundle is not None]
    return len(links) - len(members) + sum(-(-members.count(bundle) // ports) for bundle in set(members))


def fitting(links: Iterable[Link], limit: int, ports: int) -> list[Link]:
    """Those of some links that find a place, one after the other."""
    found: list[Link] = []
    for link in links:
        if places([*found, link], ports) <= limit:
            found.append(link)
    return found


def is_bound(link: Link) -> bool:
    """Whether a link is a session's, and not an accept number's."""
    return isinstance(link[1], bytes)


class Book:
    """A book: its clock, its next accept number, its over count, its links, kept asks and kept stops. An access server
    is its client and a name, if it has one. A client is whatever tells it from the others, in octets its number. A link
    is its access server, its accept number or session, its bundle, its last touch, its opening and its station."""

    def __init__(
        self, clock: int = 0, number: int = 0, over: int = 0, links: Iterable[Link] = (), asks: Iterable[Ask] = (),
        stops: Iterable[Stop] = (),
    ) -> None:
        self.clock, self.number, self.over = clock, number, over
        self.links, self.asks, self.stops = list(links), list(asks), list(stops)

    def sessions(self) -> int:
        """How many of its links are bound."""
        return sum(map(is_bound, self.links))

    def admitted(self, clients: dict[Any, Any], limit: int, ports: int) -> "Book":
        """What goes on of it, where clients become these, under these limits."""

        def going_on(values: Iterable[Any]) -> list[Any]:
            return [((clients[client], name), *rest) for (client, name), *rest in values if client in clients]

        links = fitting(going_on(self.links), limit, ports)
        return Book(self.clock, self.number, self.over, links, going_on(self.asks), going_on(self.stops))

    def octets(self) -> bytes:
        """It as it stands in a snapshot."""
        numbers = b"".join(map(state.number, (self.clock, self.number, self.over)))
        lists: list[tuple[Callable[..., bytes], list[Any]]] = [
            (link_octets, self.links), (ask_octets, self.asks), (stop_octets, self.stops)
        ]
        return numbers + b"".join(state.listed([octets(*value) for value in values]) for octets, values in lists)

    # What events do, as long as no deadline comes and none has a station: each link is live, and each kept ask and stop
    # young enough.

    def ask(self, server: Server, key: Key, limit: int, ports: int) -> int | None:
        """The accept number of an ask with this key, or None where it is rejected."""
        for _server, kept, decision, _moment, _swept in reversed(self.asks):
            if kept == key:
                return decision
        decision = None
        link: Link = (server, self.number, None, 0, 0, None)
        if places([*self.links, link], ports) <= limit:
            decision, self.number = self.number, self.number + 1
            self.links.append(link)
        self.asks = [*self.asks, (server, key, decision, 0, False)][-history.KEPT_ASKS :]
        return decision

    def alive(
        self, server: Server, session: bytes, bundle: bytes | None, number: int | None, limit: int, ports: int
    ) -> None:
        """A Start or an Interim-Update, with the accept number of its Class, if it has one."""
        reserved = []
        for at, (its_server, holder, its_bundle, _touched, opened, station) in enumerate(self.links):
            if (its_server, holder) == (server, session):
                self.links[at] = server, session, its_bundle or bundle, 0, opened, station
                return
            if its_server == server and not isinstance(holder, bytes) and number in (None, holder):
                reserved.append((holder, at))
        if any(stop[:2] == (server, session) for stop in self.stops):
            return
        link: Link = (server, session, bundle, 0, 0, None)
        if reserved:
            self.links[min(reserved)[1]] = link
        elif places([*self.links, link], ports) <= limit:
            self.links.append(link)
        else:
            self.over += 1

    def stop(self, server: Server, session: bytes) -> None:
        """A Stop."""
        self.links = [link for link in self.links if link[:2] != (server, session)]
        self.stops = [*self.stops, (server, session, 0, False)][-history.KEPT_STOPS :]


def admitted(books: dict[str, Book], clients: dict[Any, Any], accounts: Iterable[tuple[str, int, int]]) -> dict[str, Book]:
    """The books of an account file, by the names of its accounts, which have these places and ports: of those before it,
    whose clients become these, what goes on."""
    return {
        name: books[name].admitted(clients, limit, ports) if name in books else Book() for name, limit, ports in accounts
    }


def server_octets(server: Server) -> bytes:
    """An access server: a name is a NAS-Identifier."""
    client, name = server
    return state.number(client) + b"\x02" if name is None else state.nas(client, name)


def link_octets(
    server: Server, holder: Holder, bundle: bytes | None, touched: int, opened: int, station: bytes | None
) -> bytes:
    """A link: an accept number or a session has it. Where it has an opening or a station, the tag is another."""
    has_it = state.string(holder) if isinstance(holder, bytes) else state.number(holder)
    is_known = opened > 0 or station is not None
    if is_known:
        has_it += state.number(opened) + state.option(station)
    tag = bytes([2 * is_known + isinstance(holder, bytes)])
    return server_octets(server) + tag + has_it + state.option(bundle) + state.number(touched)


def ask_octets(server: Server, key: bytes, decision: int | None, moment: int, swept: bool) -> bytes:
    """A kept ask: it was accepted with a number, or refused."""
    decided = b"\x02" if decision is None else b"\x01" + state.number(decision)
    return key + server_octets(server) + decided + state.number(moment) + bytes([swept])


def stop_octets(server: Server, session: bytes, moment: int, swept: bool) -> bytes:
    """A kept stop."""
    return server_octets(server) + state.string(session) + state.number(moment) + bytes([swept])
