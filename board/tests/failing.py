"""One day of two servers over a primary and its synchronous standby, of which things are killed in the middle; and whether all is as it
was promised. Used by a test, and by board/failovers for many such days."""
import asyncio
import contextlib
import subprocess
import threading
import time

import aiohttp
from clusters import clusters, free_port, url_of
from conftest import AIRPORT, PROGRAM, ROLES, Server, objects, of_role, until

FLIGHTS = [f"AB{number}" for number in range(60)]
DESKS = {f"desk-{number}": ROLES[number % 5] for number in range(16)}
TABLES = {name: f'role = "{role}"\nclock = {str(role == "ATC").lower()}\nrecords = 20000' for name, role in DESKS.items()}


class NotBegun(Exception):
    """The clusters or the servers didn't start, so nothing was tried."""


class Day:
    """What the desks sent, and what they got."""

    def __init__(self, chance, servers, records):
        self.chance, self.servers, self.of_desk = chance, servers, -(-records // len(DESKS))
        self.sent = {name: [] for name in DESKS}
        self.got = {name: [] for name in DESKS}
        # Of each body: how often it was sent again.
        self.again = {name: [] for name in DESKS}
        self.longest, self.stop, self.is_over, self.why = 0.0, False, False, None

    def answered(self):
        return sum(len(replies) for got in self.got.values() for replies in got)

    async def speak(self, session, name, chance):
        """A desk, which sends a body again under its key, to any of the servers, until it has the replies. It goes on until it has sent
        its part of the records, and all was killed that is to be killed."""
        left, else_chance = self.of_desk, type(chance)(chance.random())
        while left > 0 or not (self.is_over or self.stop):
            lines = [of_role(chance, DESKS[name], FLIGHTS) for _ in range(chance.randrange(1, 6))]
            left -= len(lines)
            await asyncio.sleep(0.0 if left > 0 else 0.2)
            headers = {"Authorization": f"Bearer token-{name}", "Idempotency-Key": f"{name}-{len(self.sent[name])}"}
            self.sent[name].append(lines)
            self.again[name].append(0)
            began = time.monotonic()
            while True:
                port = else_chance.choice(self.servers).port
                try:
                    async with session.post(f"http://127.0.0.1:{port}/v1/records", data="\n".join(lines), headers=headers) as answer:
                        body = await answer.read()
                        assert answer.status in (200, 429, 503, 504), (answer.status, body)
                        if answer.status == 200:
                            break
                except (OSError, aiohttp.ClientError, asyncio.TimeoutError):
                    pass
                self.again[name][-1] += 1
                assert not self.stop and time.monotonic() - began < 90, "a desk got no reply"
                await asyncio.sleep(else_chance.uniform(0.02, 0.2))
            self.got[name].append(objects(body))
            self.longest = max(self.longest, time.monotonic() - began)

    async def speak_all(self):
        async with aiohttp.ClientSession(connector=aiohttp.TCPConnector(limit=0), timeout=aiohttp.ClientTimeout(40)) as session:
            await asyncio.gather(*(self.speak(session, name, type(self.chance)(self.chance.random())) for name in DESKS))

    def run(self):
        """All desks, until each has its replies; `why` is what ended them before."""
        try:
            asyncio.run(self.speak_all())
        except Exception as why:
            self.why = why


def start_again(server):
    """As a system's service manager does: until it runs."""
    end = time.monotonic() + 60
    while True:
        try:
            return server.start()
        except AssertionError:
            assert time.monotonic() < end, server.told()
            time.sleep(0.2)


@contextlib.contextmanager
def two_servers(folder):
    """A primary, its standby and two servers, which end with this. Raises NotBegun."""
    with contextlib.ExitStack() as opened:
        try:
            primary, standby = opened.enter_context(clusters(has_standby=True))
            servers = []
            for number in range(2):
                (folder / str(number)).mkdir()
                servers.append(Server(folder / str(number), TABLES, log=url_of(primary, standby)))
                # Not one that the system gives to connections: while the server is away, one of them could get it.
                servers[-1].port = free_port()
                opened.callback(ended, servers[-1])
                servers[-1].start()
        except Exception as why:
            raise NotBegun(str(why)) from why
        yield primary, standby, servers


def ended(server):
    """Ends a server. It never tells a traceback."""
    if server.process is not None and server.process.poll() is None:
        server.kill()
    server.clean()
    assert "Traceback" not in server.told(), server.told()[-4000:]


def fail_over(folder, chance, records=3000):
    """The day; what it was like, as a text."""
    with two_servers(folder) as (primary, standby, servers):
        day = Day(chance, servers, records)
        # When each thing is killed, in parts of the day, and for how long a server stays away.
        kills = sorted([(chance.uniform(0.2, 0.75), "server"), (chance.uniform(0.3, 0.7), "primary")])
        pause = chance.uniform(0.0, 2.0)
        talking = threading.Thread(target=day.run, daemon=True)
        talking.start()
        try:
            for part, what in kills:
                while day.answered() < part * records and talking.is_alive():
                    time.sleep(0.005)
                assert talking.is_alive(), "the desks ended before all was killed"
                if what == "server":
                    servers[1].kill()
                    time.sleep(pause)
                    start_again(servers[1])
                else:
                    primary.kill()
                    killed = time.monotonic()
                    standby.promote()
                    while standby.sql("SELECT pg_is_in_recovery()") == "t":
                        time.sleep(0.02)
                    promoted = time.monotonic() - killed
            day.is_over = True
            talking.join(300)
            assert not talking.is_alive(), "the desks didn't end"
        finally:
            day.stop = True
            if day.why is not None:
                raise day.why
        assert day.answered() == sum(len(lines) for sent in day.sent.values() for lines in sent)
        checked(day, standby, folder)
        return (f"{day.answered()} records, killed {', '.join(f'{what} at {100 * part:.0f} %' for part, what in kills)}, "
                f"standby promoted after {promoted:.1f} s, longest wait of a desk {day.longest:.1f} s, {sum(map(sum, day.again.values()))} bodies sent again")


def checked(day, database, folder):
    """The promises."""
    rows = [row.split("|", 4) for row in database.sql("SELECT position, desk, key, role, line FROM cdm_record ORDER BY position").splitlines()]
    assert [int(row[0]) for row in rows] == list(range(1, len(rows) + 1))
    # Each record that a desk got a reply to is in the log once, in the desk's order, and nothing else is.
    for name, role in DESKS.items():
        assert [(row[2], row[3], row[4]) for row in rows if row[1] == name] == [
            (f"{name}-{number}", role, line) for number, lines in enumerate(day.sent[name]) for line in lines]
        for lines, replies in zip(day.sent[name], day.got[name]):
            assert [reply["line"] for reply in replies] == lines
            assert [reply["position"] for reply in replies] == list(range(replies[0]["position"], replies[0]["position"] + len(lines)))
            assert all(rows[reply["position"] - 1][1:5:2] == [name, role] and rows[reply["position"] - 1][4] == reply["line"] for reply in replies)
    # The replies are those of `trace` over the log's lines.
    (folder / "airport.csv").write_text(AIRPORT)
    (folder / "lines.csv").write_text("".join(f"{row[3]},{row[4]}\n" for row in rows))
    told = {words: subprocess.run([PROGRAM, *words, "airport.csv", "lines.csv", "--format", "json"], cwd=folder, capture_output=True, check=True).stdout
            for words in (("trace",), ("plan",))}
    traced = {reply["record"]: reply for reply in objects(told["trace",])}
    accepted = 0
    for reply in sorted((reply for got in day.got.values() for replies in got for reply in replies), key=lambda reply: reply["position"]):
        wanted = traced.get(reply["position"], {"reply": "ACCEPTED", "changes": []})
        accepted += wanted["reply"] == "ACCEPTED"
        assert reply["reply"] == wanted["reply"] and reply.get("word") == wanted.get("word")
        if reply["reply"] == "ACCEPTED":
            assert reply["accepted"] == wanted.get("accepted", accepted) == accepted
            assert reply["changes"] is None or reply["changes"] == wanted["changes"]
    # What a record changes isn't kept of a body that was sent again, to a server that had started since.
    for name in DESKS:
        assert not [replies for replies, again in zip(day.got[name], day.again[name]) if not again and
                    any(reply.get("changes", []) is None for reply in replies)]
    # Both servers and `plan` over the log's lines have one plan.
    for server in day.servers:
        until(server.is_ready)
        until(lambda: server.get("/v1/records?since=60000", "desk-0", Cdm_After=str(len(rows))).status == 200, 30)
        # On a busy machine the program, which is asked at nice 10, may take longer than a server waits for it.
        answers = []
        until(lambda: answers.append(server.get("/v1/plan.json", "desk-0").status) or answers[-1] == 200, 240)
        assert set(answers) <= {200, 504}, answers
        until(lambda: "Cdm-Stale-Since" not in server.get("/v1/records", "desk-0").headers, 20)
        plan = server.get("/v1/plan.json", "desk-0")
        assert (plan.status, plan.headers["Cdm-Position"]) == (200, str(len(rows)))
        assert {**objects(plan.body)[0], "refused": []} == {**objects(told["plan",])[0], "refused": []}
        assert [(record["position"], record["line"], record["reply"]) for record in server.records("desk-0")] == [
            (number, row[4], traced.get(number, {"reply": "ACCEPTED"})["reply"]) for number, row in enumerate(rows, 1)]
