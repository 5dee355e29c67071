"""Load: many desks, many displays. The gate asserts that all get all, in order, and memory; times are figures."""
import asyncio
import itertools
import json
import re
import time

import aiohttp
from conftest import ROLES, count, figure, moment, objects

DISPLAYS, SECONDS, DESKS = count("BOARD_DISPLAYS", 100), count("BOARD_LOAD_SECONDS", 10), 64
IDS = re.compile(rb"id: [0-9a-f]+-([0-9]+)\nevent: reply\ndata: [^\n]*\n")


class Display(asyncio.Protocol):
    """Events as they come: the position of each accepted record, and when it was there."""

    def __init__(self, token="screen", query=""):
        self.token, self.query, self.seen, self.rest = token, query, [], b""
        self.opened, self.ended = asyncio.Event(), asyncio.Event()

    def connection_made(self, transport):
        self.close = transport.abort
        transport.write(f"GET /v1/events{self.query} HTTP/1.1\r\nHost: localhost\r\nAuthorization: Bearer token-{self.token}\r\n\r\n".encode())

    def data_received(self, data):
        self.opened.set()
        now, data, end = time.monotonic(), self.rest + data, 0
        for found in IDS.finditer(data):
            self.seen.append((int(found[1]), now))
            end = found.end()
        self.rest = data[end:] if end or len(data) < 1 << 16 else b""

    def connection_lost(self, fault):
        self.ended.set()


async def displays(port, number, token="screen", address=0, query=""):
    """That many, from addresses of which none has too many."""
    made = []
    for k in range(number):
        _, display = await asyncio.get_running_loop().create_connection(
            lambda: Display(token, query), "127.0.0.1", port, local_addr=(f"127.0.{address}.{3 + k // 90}", 0))
        made.append(display)
    for display in made:
        await asyncio.wait_for(display.opened.wait(), 30)
    return made


def middle(times, part=0.5):
    return f"{1000 * sorted(times)[int(len(times) * part)]:.0f} ms"


def test_all_displays_see_all(board):
    """64 desks with 100 records a second in all, and displays, each of which gets every accepted record once and in order."""
    desks = {f"desk-{number}": ROLES[number % 5] for number in range(DESKS)}
    server = board({name: f'role = "{role}"\nrecords = 20000' for name, role in desks.items()} | {"screen": 'role = "READ"'})
    lines = {"AO": "TOBT,AB{0},{1}", "GH": "TOBT,AB{0},{1}", "AP": "GROUP,AB{0},{2}", "ATC": "PRIO,AB{0},{3}", "NM": "CTOT,AB{0},{1}"}
    server.post([f"FLT,AB{number},5" for number in range(200)], "desk-2")
    before, replied, times = server.memory(), {}, []

    async def desk(session, name, number, end):
        await asyncio.sleep(number / 100)
        for turn in itertools.count():
            began = time.monotonic()
            if began > end:
                return
            line = lines[desks[name]].format((number * 37 + turn * 11) % 200, moment(300 + (turn * 7 + number) % 900), "LMH"[turn % 3], turn % 10)
            async with session.post("/v1/records", data=line, headers={"Authorization": f"Bearer token-{name}"}) as answer:
                assert answer.status == 200
                reply, = objects(await answer.read())
            replied[reply["position"]] = (reply["reply"], time.monotonic())
            times.append(time.monotonic() - began)
            await asyncio.sleep(max(0, DESKS / 100 - (time.monotonic() - began)))

    async def talk():
        shown = await displays(server.port, DISPLAYS)
        async with aiohttp.ClientSession(f"http://127.0.0.1:{server.port}", connector=aiohttp.TCPConnector(limit=0)) as session:
            end = time.monotonic() + SECONDS
            await asyncio.gather(*(desk(session, name, number, end) for number, name in enumerate(desks)))
        await asyncio.sleep(1)
        memory = server.memory()
        server.process.terminate()
        for display in shown:
            await asyncio.wait_for(display.ended.wait(), 30)
        return memory, [display.seen for display in shown]
    memory, seen = asyncio.run(talk())
    assert server.process.wait(30) == 0
    wanted = [position for position, (reply, _) in sorted(replied.items()) if reply == "ACCEPTED"]
    assert len(seen) == DISPLAYS and all([position for position, _ in mine] == wanted for mine in seen)
    last = [max(mine[k][1] for mine in seen) - replied[position][1] for k, position in enumerate(wanted)]
    figure(f"Load: {len(times)} records of {DESKS} desks in {SECONDS} s, {DISPLAYS} displays: a reply in {middle(times)} at the median, "
           f"{middle(times, 0.99)} for 99 of 100; an event at all displays {middle(last)} after its reply at the median, {middle(last, 0.99)} for "
           f"99 of 100; memory {before:.0f} MiB before, {memory:.0f} MiB after")
    assert len(times) >= DESKS and memory < before + 50 + DISPLAYS / 5


def test_each_event_once_among_many_displays(board):
    """A desk's own streams among hundreds of displays, while it is refused and accepted; and displays that come meanwhile, and want all."""
    server = board({"ap": 'role = "AP"\nrecords = 20000', "screen": 'role = "READ"'})
    log = json.loads(server.get("/v1/who", "ap").body)["log"]

    async def talk():
        shown = await displays(server.port, 400) + await displays(server.port, 20, "ap", 9)
        async with aiohttp.ClientSession(f"http://127.0.0.1:{server.port}") as session:
            async def post(k):
                await asyncio.sleep(k / 40)
                body, token = f"FOO\nFLT,AB{k},5", {"Authorization": "Bearer token-ap"}
                async with session.post("/v1/records", data=body, headers=token) as answer:
                    return objects(await answer.read())[1]["position"]

            async def come(k):
                await asyncio.sleep(k / 20)
                shown.extend(await displays(server.port, 1, "screen", 12, f"?since={log}-0"))
            positions = sorted((await asyncio.gather(*(post(k) for k in range(120)), *(come(k) for k in range(60))))[:120])
        await asyncio.sleep(1)
        return positions, [[position for position, _ in display.seen] for display in shown]
    positions, seen = asyncio.run(talk())
    assert all(mine == positions for mine in seen)


def test_memory_after_displays_and_records(board):
    """Displays that come and go leave nothing, and a day's records what they are."""
    server = board({f"gh-{number}": 'role = "GH"' for number in range(16)} | {"ap": 'role = "AP"', "screen": 'role = "READ"'})
    server.post([f"FLT,AB{number},5" for number in range(200)], "ap")
    before, come = server.memory(), count("BOARD_COME", 500)

    async def talk():
        for turn in range(-(-come // 250)):
            for display in await displays(server.port, 250, "screen", turn):
                display.close()
            await asyncio.sleep(0.1)
    asyncio.run(talk())
    time.sleep(0.5)
    assert server.metric("cdm_displays", "screen") == 0
    after, number, took = server.memory(), 0, count("BOARD_DAY", 2000)
    while number < took:
        answer = server.post([f"TOBT,AB{k % 200},{moment(300 + k % 900)}" for k in range(number, number + 50)], f"gh-{number // 50 % 16}")
        if isinstance(answer, list):
            number += 50
        else:
            assert answer.status == 429
            time.sleep(0.05)
    figure(f"Memory: {before:.0f} MiB, {after:.0f} MiB after {come} displays came and went, {server.memory():.0f} MiB after {number} records")
    assert after < before + 30 and server.memory() < before + 60 + took / 200
