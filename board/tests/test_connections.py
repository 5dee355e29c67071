"""Which connections are let in: random comings and goings, by the real code of it, held to its laws."""
import asyncio
import gc
import random
from unittest import mock

import pytest
from aiohttp import web
from board.connections import Limits, Places, group_of, is_loopback
from board.guard import Guard
from conftest import count


def test_what_counts_as_one_address():
    for address, group in (("192.0.2.7", "192.0.2.7"), ("::ffff:192.0.2.7", "192.0.2.7"), ("2001:db8:1:2:3:4:5:6", "2001:db8:1:2::/64"),
                           ("2001:db8:1:2::9", "2001:db8:1:2::/64"), ("2001:db8:1:3::9", "2001:db8:1:3::/64"), ("fe80::1%eth0", "fe80::/64"),
                           ("whatever", "whatever"), ("", "")):
        assert group_of(address) == group, address
    for address in ("127.0.0.1", "127.9.9.9", "::1", "::ffff:127.0.0.1", "localhost"):
        assert is_loopback(address), address
    for address in ("192.0.2.7", "::", "0.0.0.0", "::ffff:192.0.2.7", "", "x"):
        assert not is_loopback(address), address


class World:
    """Connections as the laws see them, by nothing but what came, showed a token, and went."""

    def __init__(self, limits, room):
        self.limits, self.most, self.places = limits, min(limits.connections, room), Places(limits, room)
        self.there, self.shown, self.known, self.next = {}, set(), set(), 0

    def comes(self, address):
        self.next += 1
        group = group_of(address)
        own = [number for number, other in self.there.items() if other == group]
        strangers = [number for number in self.there if number not in self.shown]
        entry = self.places.enter(self.next, address)
        if entry.goes is not None:
            # Nobody who showed a token makes room, nor does anybody for who isn't let in.
            assert entry.is_in and entry.goes not in self.shown and entry.goes in self.there
            # A stranger at an unknown address that has its share sends away nobody, and one there is let go before one at a known one.
            elsewhere = [number for number in strangers if self.there[number] not in self.known]
            if self.there[entry.goes] in self.known and self.there[entry.goes] != group:
                assert not elsewhere and group in self.known
            del self.there[entry.goes]
        if entry.is_in:
            self.there[self.next] = group
        elif group in self.known:
            # Who comes from a known address is refused only if all places, or all of its own, are of who showed a token.
            assert len(self.shown) >= self.most or len([number for number in own if number in self.shown]) >= self.limits.of_known_address
        else:
            # From an unknown one only if it has its share, or nobody at an unknown one is left to make room.
            assert len(own) >= self.limits.of_address or not [number for number in strangers if self.there[number] not in self.known]

    def shows(self, number):
        self.places.show(number)
        self.shown.add(number)
        self.known.add(self.there[number])

    def goes(self, number):
        self.places.leave(number)
        self.shown.discard(number)
        del self.there[number]

    def check(self):
        assert len(self.places) == len(self.there) <= self.most
        groups = list(self.there.values())
        for group in set(groups):
            assert groups.count(group) <= (self.limits.of_known_address if group in self.known else self.limits.of_address)
        assert sum(group not in self.known for group in groups) <= max(1, self.most - self.limits.kept_for_desks)


def lives(chance):
    """One random schedule."""
    limits = Limits(chance.randrange(1, 25), chance.randrange(1, 6), chance.randrange(1, 12), chance.randrange(1, 25))
    if limits.of_known_address < limits.of_address:
        limits = Limits(limits.connections, limits.of_known_address, limits.of_address, limits.kept_for_desks)
    world = World(limits, chance.randrange(1, 40))
    addresses = [f"192.0.2.{number}" for number in range(chance.randrange(1, 9))] + [f"2001:db8::{number}:1" for number in range(3)]
    for _ in range(chance.randrange(120)):
        there, what = list(world.there), chance.random()
        if what < 0.6 or not there:
            world.comes(chance.choice(addresses))
        elif what < 0.75:
            world.shows(chance.choice(there))
        else:
            world.goes(chance.choice(there))
        world.check()
    for number in list(world.there):
        world.goes(number)
    assert len(world.places) == 0 and not world.places._groups and not world.places._unknown


def test_places_keep_their_laws(chance):
    for _ in range(count("BOARD_PLACES", 1500)):
        seed = chance.randrange(1 << 48)
        try:
            lives(random.Random(seed))
        except AssertionError as fault:
            pytest.fail(f"seed {seed}: {fault}")


def test_a_connection_whose_task_fails_is_ended(monkeypatch):
    """aiohttp reads the requests of a connection in a task. Where that ends by a fault nobody would read on."""
    async def start(_):
        raise ValueError("an address that can't be read")

    async def was_cut():
        # A task whose fault nobody asks for tells it while it is collected, here and not while a failure is told.
        asyncio.get_running_loop().set_exception_handler(lambda *_: None)
        transport = mock.Mock(spec=asyncio.Transport)
        Guard(web.Server(None), mock.Mock(), is_for_proxy=False).connection_made(transport)
        await asyncio.sleep(0.1)
        gc.collect()
        return transport.abort.called
    monkeypatch.setattr(web.RequestHandler, "start", start)
    is_cut = asyncio.run(was_cut())
    assert is_cut


def test_connections_of_a_proxy_count_in_all_alone():
    places = Places(Limits(connections=20, of_address=1, of_known_address=1), 100)
    assert [places.enter_from_proxy(number).is_in for number in range(21)] == [True] * 20 + [False]
    places.show(3)
    places.leave(3)
    assert places.enter_from_proxy(21).is_in


def test_known_addresses_are_bounded(monkeypatch):
    """The one that showed a token longest ago is a stranger again."""
    from board import connections as module
    monkeypatch.setattr(module, "MOST_KNOWN", 2)
    places = Places(Limits(of_address=1, of_known_address=5), 100)
    for number, address in enumerate(("a", "b", "c")):
        assert places.enter(number, address).is_in
        places.show(number)
    assert [places.enter(10 + number, address).is_in for number, address in enumerate("abc")] == [False, True, True]
