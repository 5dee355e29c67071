"""Places: which connections are let in, and which have to make room. Nothing here waits, reads or writes.

A connection is a stranger until a desk's token is shown on it; an address is known once that happened at it. Strangers at one unknown
address have few places, and all of them together have those that aren't kept for known addresses. When these are full, the one that
came first makes room for the one that comes: it had its time to show a token."""
import ipaddress
from collections import OrderedDict
from dataclasses import dataclass, field
from typing import NamedTuple

MOST_KNOWN = 4096
PROXY = "proxy"


@dataclass(frozen=True)
class Limits:
    """How many connections there may be: in all, at an address that has shown no token, at one that has, and how many of all are kept
    for the latter. `opened_..`: how many streams of events are opened at an address within a minute by one desk, and without one; and
    within ten seconds by all together who have none."""
    connections: int = 10_000
    of_address: int = 100
    of_known_address: int = 1000
    kept_for_desks: int = 2000
    opened_without_desk: int = 600
    opened_by_desk: int = 2000
    opened_together: int = 1000


class Entry(NamedTuple):
    """Whether a connection is let in, and which other one has to go for it."""
    is_in: bool
    goes: int | None = None


@dataclass
class Group:
    """The connections of an address: strangers in the order in which they came, and those on which a token was shown."""
    is_known: bool = False
    strangers: OrderedDict[int, None] = field(default_factory=OrderedDict)
    shown: set[int] = field(default_factory=set)

    def count(self) -> int:
        """How many there are."""
        return len(self.strangers) + len(self.shown)


def host_of(address: str) -> ipaddress.IPv4Address | ipaddress.IPv6Address | None:
    """An address without its zone, an IPv4 address in IPv6 as the former; None if it is none."""
    try:
        host = ipaddress.ip_address(address.partition("%")[0])
    except ValueError:
        return None
    return getattr(host, "ipv4_mapped", None) or host


def is_loopback(address: str) -> bool:
    """Whether this machine itself speaks."""
    host = host_of(address)
    return address == "localhost" or host is not None and host.is_loopback


def group_of(address: str) -> str:
    """What counts as one address: of IPv6 the first 64 bits, since one machine may have all of the rest."""
    host = host_of(address)
    return str(ipaddress.ip_network((host, 64), strict=False)) if host is not None and host.version == 6 else str(host or address)


class Places:
    """The connections of a server by their numbers. `room`: how many the machine lets it have."""

    def __init__(self, limits: Limits, room: int) -> None:
        self.limits = limits
        self._room = room
        self._groups = OrderedDict[str, Group]()
        self._group_of = dict[int, str]()
        # Strangers at unknown addresses, in the order in which they came; known addresses, the last one last.
        self._unknown = OrderedDict[int, None]()
        self._known = OrderedDict[str, None]()

    def __len__(self) -> int:
        return len(self._group_of)

    def most(self) -> int:
        """How many connections there may be in all."""
        return max(1, min(self.limits.connections, self._room))

    def enter(self, number: int, address: str) -> Entry:
        """A connection comes."""
        name = group_of(address)
        group = self._groups.get(name) or Group(name in self._known)
        of_group = self.limits.of_known_address if group.is_known else self.limits.of_address
        goes = None
        if group.count() >= of_group:
            goes = next(iter(group.strangers), None) if group.is_known else None
            if goes is None:
                return Entry(False)
        elif len(self) >= self.most() or not group.is_known and len(self._unknown) >= self._for_unknown():
            goes = self._oldest(group.is_known)
            if goes is None:
                return Entry(False)
        if goes is not None:
            self.leave(goes)
        group = self._groups.setdefault(name, group)
        group.strangers[number] = None
        self._group_of[number] = name
        if not group.is_known:
            self._unknown[number] = None
        return Entry(True, goes)

    def enter_from_proxy(self, number: int) -> Entry:
        """A connection of the proxy comes, which counts in all alone: who is behind it isn't known here."""
        if len(self) >= self.most():
            return Entry(False)
        self._group_of[number] = PROXY
        self._groups.setdefault(PROXY, Group(True)).shown.add(number)
        return Entry(True)

    def _for_unknown(self) -> int:
        return max(1, self.most() - self.limits.kept_for_desks)

    def _oldest(self, is_known: bool) -> int | None:
        """The stranger that came first at an unknown address; for who comes from a known one, else one at a known address."""
        if self._unknown or not is_known:
            return next(iter(self._unknown), None)
        return next((next(iter(group.strangers)) for group in self._groups.values() if group.strangers), None)

    def show(self, number: int) -> None:
        """A desk's token was shown on a connection: it stays, and its address is known."""
        name = self._group_of.get(number)
        if name is None or name == PROXY:
            return
        group = self._groups[name]
        if number in group.strangers:
            del group.strangers[number]
            group.shown.add(number)
            self._unknown.pop(number, None)
        if not group.is_known:
            group.is_known = True
            for stranger in group.strangers:
                self._unknown.pop(stranger, None)
        self._known[name] = None
        self._known.move_to_end(name)
        if len(self._known) > MOST_KNOWN:
            self._forget(self._known.popitem(last=False)[0])

    def rank(self, number: int) -> int:
        """Whom a connection waits for: 0, nobody, as on it a token was shown, or it is none; 1, strangers at known addresses; 2, the others."""
        group = self._groups.get(self._group_of.get(number, ""))
        if group is None or number not in group.strangers:
            return 0
        return 1 if group.is_known else 2

    def _forget(self, name: str) -> None:
        group = self._groups.get(name)
        if group is not None:
            group.is_known = False
            self._unknown.update(group.strangers)

    def leave(self, number: int) -> None:
        """A connection ends, or makes room."""
        name = self._group_of.pop(number, None)
        if name is None:
            return
        group = self._groups[name]
        group.strangers.pop(number, None)
        group.shown.discard(number)
        self._unknown.pop(number, None)
        if not group.count():
            del self._groups[name]
