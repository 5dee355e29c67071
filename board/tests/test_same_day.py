"""Same day: the log's lines in their order are the day, whoever reads them."""
import asyncio
import subprocess

import aiohttp
import pytest
from conftest import AIRPORT, PROGRAM, ROLES, count, objects, of_role


@pytest.mark.parametrize("day", range(count("BOARD_DAYS", 5)))
def test_a_day_is_its_log(board, chance, day):
    """16 desks at once; then `trace` of the log's lines makes their replies, and a second start has the same plan."""
    desks = {f"desk-{number}": ROLES[number % 5] for number in range(16)}
    server = board({name: f'role = "{role}"\nclock = {str(role == "ATC").lower()}' for name, role in desks.items()})
    flights, replies = [f"AB{number}" for number in range(30)], []

    async def speak(session, name, chance):
        for _ in range(25):
            lines = [of_role(chance, desks[name], flights) for _ in range(chance.randrange(1, 6))]
            async with session.post("/v1/records", data="\n".join(lines), headers={"Authorization": f"Bearer token-{name}"}) as answer:
                assert answer.status == 200
                got = objects(await answer.read())
            assert [reply["line"] for reply in got] == lines and {reply["desk"] for reply in got} == {name}
            assert [reply["position"] for reply in got] == list(range(got[0]["position"], got[0]["position"] + len(got)))
            replies.extend(got)

    async def speak_all():
        async with aiohttp.ClientSession(f"http://127.0.0.1:{server.port}") as session:
            await asyncio.gather(*(speak(session, name, type(chance)(chance.random())) for name in desks))
    asyncio.run(speak_all())
    replies.sort(key=lambda reply: reply["position"])
    assert [reply["position"] for reply in replies] == list(range(1, len(replies) + 1))
    (server.folder / "lines.csv").write_text("".join(f"{reply['role']},{reply['line']}\n" for reply in replies))
    (server.folder / "trace.csv").write_text(AIRPORT)
    traced = subprocess.run([PROGRAM, "trace", "trace.csv", "lines.csv", "--format", "json"], cwd=server.folder, capture_output=True)
    assert objects(traced.stdout) == [
        {"record": reply["position"], **{name: reply[name] for name in ("reply", "accepted", "changes", "word") if name in reply}}
        for reply in replies if reply.get("changes") != []]
    plan, journal = server.get("/v1/plan.json", "desk-0"), server.get("/v1/journal.csv", "desk-0")
    assert server.end() == 0
    server.start()
    assert server.get("/v1/plan.json", "desk-0").body == plan.body
    assert server.get("/v1/journal.csv", "desk-0").body == journal.body
    assert server.get("/v1/plan.json", "desk-0").headers["ETag"] == plan.headers["ETag"]
    assert [record["reply"] for record in server.records("desk-0")] == [reply["reply"] for reply in replies]
