"""Displays that stay: clients of the events that do what the page does, whatever becomes of the servers."""
import contextlib
import http.client
import json
import socket
import threading
import time

from conftest import FACTOR, objects, until

DESK = "screen"
HEADERS = {"Authorization": f"Bearer token-{DESK}"}


class Shown:
    """What displays show at each position: a plan, and the members of a view. It is the same on all of them, or there is a fault."""

    def __init__(self):
        self.said, self.faults = {}, []

    def keep(self, what, position, said):
        if (before := self.said.setdefault((what, position), said)) != said:
            self.faults.append((what, position, before, said))


class Screen:
    """One display. It follows one of some servers; if that one ends, it comes back to one of them, with the position of its rows."""

    def __init__(self, servers, chance, shown):
        self.servers, self.chance, self.shown = servers, type(chance)(chance.random()), shown
        self.log_id, self.moment, self.plan, self.view_at, self.dates, self.shows = "", None, None, -1, [], 0
        self.connections, self.is_over, self.connection, self.fault = 0, False, None, None
        self.thread = threading.Thread(target=self.run, daemon=True)
        self.thread.start()

    def run(self):
        try:
            while not self.is_over:
                with contextlib.suppress(OSError, http.client.HTTPException):
                    self.follow(self.chance.choice(self.servers))
                time.sleep(self.chance.uniform(0, 0.1))
        except Exception as fault:
            self.fault = repr(fault)

    def follow(self, server):
        """The events of one connection, until it breaks."""
        since = f"{self.log_id}-{self.moment[0]}" if self.moment else ""
        self.connection = http.client.HTTPConnection("127.0.0.1", server.port, timeout=45)
        try:
            self.connection.request("GET", f"/v1/events?since={since}", headers=HEADERS)
            answer = self.connection.getresponse()
            assert answer.status in (200, 429, 503), answer.status
            self.connections += answer.status == 200
            name = ""
            for line in answer if answer.status == 200 else ():
                word, _, said = line.decode().strip().partition(": ")
                if word == "event":
                    name = said
                elif word == "data":
                    self.take(server, name, json.loads(said))
        finally:
            self.connection.close()

    def take(self, server, name, said):
        """One event. What `from` says is where the rows are, or they are of another past; what a reply changed may not be known any more."""
        is_new = name == "reply" and said["position"] > self.moment[0]
        if name == "reset" or name == "from" and (said["position"], said["at"]) != self.moment or is_new and said["changes"] is None:
            self.read(server, said["position"])
        elif is_new:
            date, now, rows = self.plan
            now = said["line"].removeprefix("CLOCK,") if said["line"].startswith("CLOCK,") else now
            self.show(said["position"], said["at"], (date, now, rows | {row["flight"]: row for row in said["changes"]}))
        elif name == "view":
            # One that was made on a busy machine may lack a member.
            for member in sorted(said.keys() - {"position"}):
                self.shown.keep(member, said["position"], said[member])
            self.view_at = said["position"]

    def read(self, server, least):
        """The whole plan, of a position or a later one."""
        while True:
            answer = server.get("/v1/plan.json", DESK, Cdm_After=str(least))
            if answer.status == 200 and int(answer.headers["Cdm-Position"]) >= least:
                break
            assert answer.status in (200, 429, 503, 504), answer.status
            time.sleep(0.05)
        plan, = objects(answer.body)
        self.log_id = answer.headers["ETag"].strip('"').partition(".")[0]
        rows = {row["flight"]: row for row in plan["flights"]}
        self.show(int(answer.headers["Cdm-Position"]), answer.headers["Cdm-At"], (plan["day"], plan["now"], rows))

    def show(self, position, at, plan):
        self.plan, self.moment = plan, (position, at)
        self.shows += 1
        self.dates += [plan[0]] if plan[0] not in self.dates[-1:] else []
        self.shown.keep("plan", position, plan)

    def end(self):
        self.is_over = True
        with contextlib.suppress(OSError, AttributeError):
            self.connection.sock.shutdown(socket.SHUT_RDWR)
        self.thread.join(60 * FACTOR)
        assert not self.thread.is_alive() and self.fault is None, self.fault


class Watched:
    """A display that stays, and a new one at each moment at which it is asked for."""

    def __init__(self, servers, chance):
        self.servers, self.chance, self.shown = servers, chance, Shown()
        self.staying = Screen(servers, chance, self.shown)

    @contextlib.contextmanager
    def new(self):
        one = Screen(self.servers, self.chance, self.shown)
        try:
            yield one
        finally:
            one.end()

    def shows_the_same(self, position):
        """While nobody sends: the rows behind the last record that was accepted, and whatever both have shown before."""
        with self.new() as one:
            self.until(lambda: all(screen.moment and screen.moment[0] >= position for screen in (one, self.staying)))
            assert one.plan == self.staying.plan
        assert self.shown.faults == [], self.shown.faults[0]

    def ends(self, position):
        """Once nobody sends any more: also the totals, the next start-ups, the warnings and the loads of the last position."""
        with self.new() as one:
            self.until(lambda: one.view_at == self.staying.view_at == position)
        self.staying.end()
        assert self.shown.faults == [], self.shown.faults[0]

    def until(self, is_so):
        until(lambda: is_so() or self.staying.fault, 60)
        assert self.staying.fault is None, self.staying.fault
