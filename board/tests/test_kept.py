"""Kept: what was answered is in the log once, at its position, in its desk's order, whatever is killed when."""
import http.client
import os
import signal
import threading
import time

from conftest import count, of_role, figure

FLIGHTS = [f"AB{number}" for number in range(40)]
DESKS = {f"{role.lower()}-{number}": role for role in ("AO", "GH", "AP", "ATC", "NM") for number in range(2)}


def test_what_was_answered_is_kept(board, chance):
    """Desks post with keys and send again what wasn't answered, while server and sequencer are killed."""
    server = board({name: f'role = "{role}"\nclock = {str(role == "ATC").lower()}\nrecords = 20000' for name, role in DESKS.items()})
    kills, ending, answered, sent = count("BOARD_KILLS", 20), threading.Event(), {}, {}

    def desk(name, chance):
        answered[name], sent[name] = [], []
        while not ending.is_set():
            lines = [of_role(chance, DESKS[name], FLIGHTS) for _ in range(chance.randrange(1, 5))]
            key = f"{name}-{len(sent[name])}"
            sent[name].append(lines)
            while True:
                try:
                    replies = server.post(lines, name, key)
                    if isinstance(replies, list):
                        answered[name].append(replies)
                        break
                    assert replies.status in (429, 503, 504), replies
                except (OSError, http.client.HTTPException, ValueError):
                    pass
                if ending.wait(0.05):
                    return
    threads = [threading.Thread(target=desk, args=(name, type(chance)(chance.random()))) for name in DESKS]
    for thread in threads:
        thread.start()
    began = time.monotonic()
    for kill in range(kills):
        time.sleep(chance.uniform(0.05, 0.6))
        for sequencer in server.sequencers() if kill % 2 else ():
            os.kill(sequencer, signal.SIGKILL)
        if kill % 2 == 0:
            server.kill()
            server.start()
    ending.set()
    for thread in threads:
        thread.join()
    log = server.records("ap-0")
    assert [record["position"] for record in log] == list(range(1, len(log) + 1))
    at = {record["position"]: record for record in log}
    for name in DESKS:
        flat = [reply for replies in answered[name] for reply in replies]
        for reply in flat:
            # The log has no sentences.
            reply.pop("sentence", None)
            assert {**at[reply["position"]], "changes": 0} == {**reply, "changes": 0}
        assert [reply["line"] for reply in flat] == [line for lines in sent[name][:len(answered[name])] for line in lines]
        positions = [record["position"] for record in log if record["desk"] == name]
        assert [reply["position"] for reply in flat] == positions[:len(flat)]
        # At most the one body that wasn't answered stands behind them.
        assert [at[position]["line"] for position in positions[len(flat):]] in ([], sent[name][-1])
    figure(f"Kept: {kills} kills, {sum(map(len, answered.values()))} bodies answered, {len(log)} records, "
           f"{time.monotonic() - began:.1f} s")
    assert sum(map(len, answered.values())) > kills
