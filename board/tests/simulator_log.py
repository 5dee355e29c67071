#!/usr/bin/python3 -B
"""Runs the log's machines over a clock and an engine of its own, under schedules drawn by a seed, and holds them to their laws.
    board/tests/simulator_log.py [COUNT [FIRST_SEED]]
The engine is a model of SQLite's file and of PostgreSQL: commits that are slow, fail, hang, or end without an answer; servers that are
killed; desks that go away; fail-overs that lose records or don't; a database of the past; a sequencer that says what it mustn't; changes of
day in the middle of it all. What decides is the real code of board/writer.py, following.py and life.py."""
import heapq
import itertools
import pathlib
import random
import sys
import time
import zlib

ROOT = pathlib.Path(__file__).resolve().parent.parent.parent
sys.path.insert(0, str(ROOT))
from board import following as real_following  # noqa: E402
from board import life as real_life  # noqa: E402
from board import writer as real_writer  # noqa: E402
from board.log import CARRY_SECONDS, Batch, Change, Record  # noqa: E402
from board.words import Problem  # noqa: E402

# So small that schedules reach them.
TOGETHER, WAITING = 3, 6
# Seconds of a schedule in which things go wrong, and then until each desk has its answers.
STORMY, CALM = 60.0, 160.0


class Broken(AssertionError):
    """A law doesn't hold."""


def law(holds, name, *what):
    if not holds:
        raise Broken(f"{name}: {what}")


class Clock:
    """What happens when."""

    def __init__(self):
        self.now, self._events, self._numbers = 0.0, [], itertools.count()

    def at(self, seconds, call, *words):
        heapq.heappush(self._events, (self.now + seconds, next(self._numbers), call, words))

    def run(self, until):
        while self._events and self._events[0][0] <= until:
            self.now, _, call, words = heapq.heappop(self._events)
            call(*words)


class Sequencer:
    """A process: what it replies is a function of the lines before. Now and then it says something else, or nothing more."""

    def __init__(self, world, lines):
        self.world, self.state, self.accepted, self.number = world, 0, 0, 0
        for line in lines:
            self.reply(line)
        self.number = 0

    def reply(self, line):
        self.number += 1
        word = word_of(self.state, line)
        if word:
            return {"record": self.number, "reply": "REFUSED", "word": word, "sentence": "why"}
        self.state, self.accepted = zlib.crc32(line.encode(), self.state), self.accepted + 1
        return {"record": self.number, "reply": "ACCEPTED", "accepted": self.accepted, "changes": []}

    def said(self, line):
        """What it says to a line; None: it ended."""
        reply, chance = self.reply(line), self.world.chance
        if self.world.is_calm or chance.random() > 0.01:
            return reply
        other = {"record": self.number + 1, "reply": "REFUSED", "word": "OTHER", "sentence": "why"}
        more = {"record": self.number, "reply": "ACCEPTED", "accepted": self.accepted + 2, "changes": []}
        return chance.choice((None, other, more, {}, {"ready": 0}))


def word_of(state, line):
    """Why a line is refused behind others; None: it is accepted."""
    return "WORD" if zlib.crc32(line.encode(), state) % 4 == 0 else None


def carried(lines):
    """What of a day's accepted lines the next day begins with."""
    state, found = 0, []
    for line in lines:
        if zlib.crc32(line.encode()) % 3 and not word_of(state, line):
            state = zlib.crc32(line.encode(), state)
            found.append(line)
    return found


class Transaction:
    """One transaction in the engine, of one server. `held`: since when it keeps the others waiting, to carry over a day."""

    def __init__(self, server, commit):
        self.server, self.commit, self.is_over, self.is_heard, self.is_overdue, self.held = server, commit, False, True, False, None


class Engine:
    """The records that are committed, and who may commit: one transaction after the other."""

    def __init__(self, world):
        self.world, self.rows, self.keys, self.changes = world, [], {}, {}
        self.turn, self.queue, self.timeline, self.past = None, [], 1, None
        self.is_file = world.chance.random() < 0.5

    def append(self, batches):
        """All batches in one transaction, as `cdm_append` takes them; None where one of them can't be taken."""
        if any(batch.most < 0 for batch in batches):
            return None
        said = []
        for batch in batches:
            kept = self.keys.get((batch.desk, batch.key))
            if kept is None:
                kept = self.keys[batch.desk, batch.key] = range(len(self.rows) + 1, len(self.rows) + 1 + len(batch.records))
                at = f"{self.world.attempts[id(batch)].began:.3f}"
                self.rows += [(batch.desk, batch.key, line, at) for _, line in batch.records]
            said.append(kept)
        return said

    def change(self, transaction):
        """The answers of a transaction that changes the day: what came before it is carried over now; None where its server hasn't that yet."""
        (batch,), last, now = transaction.commit.batches, len(self.rows), self.world.clock.now
        feed, number = list(batch.change.feed), int(batch.records[0][1].partition(",")[2])
        if batch.change.position != last + 1:
            if transaction.held is None:
                transaction.held = now
            if transaction.server.is_dead or now - transaction.held >= CARRY_SECONDS:
                return [Problem(503, "the day wasn't carried over")]
            if len(transaction.server.day) != last:
                return None
            if transaction.server.number != number - 1:
                return [Problem(409, "another day began meanwhile")]
            feed = transaction.server.carry()
        said = self.append([batch])
        self.changes[last + 1] = feed
        return said

    def begin(self, transaction):
        self.queue.append(transaction)
        self.next()

    def next(self):
        if self.turn is None and self.queue:
            self.turn = self.queue.pop(0)
            chance = self.world.chance
            seconds = chance.choice((0.001, 0.01, 0.01, 0.05, 0.3)) if self.world.is_calm or chance.random() < 0.8 else chance.uniform(1, 60)
            self.world.clock.at(seconds, self.end, self.turn)

    def record_at(self, position, rows=None):
        rows = self.rows if rows is None else rows
        if not 0 < position <= len(rows):
            return None
        desk, _, line, at = rows[position - 1]
        return Record(position, desk, "AP", line, at, is_change=line.startswith("DAY,"))

    def fail_over(self):
        """Another database takes its place. What ran is over; without a synchronous standby the last records may be gone."""
        chance, running = self.world.chance, [*([self.turn] if self.turn else []), *self.queue]
        self.past, self.timeline = (self.timeline, list(self.rows)), self.timeline + 1
        if running and chance.random() < 0.5:
            if running[0].commit.batches[0].change is None:
                self.append(running[0].commit.batches)
            else:
                self.change(running[0])
        if chance.random() < 0.5:
            self.lose(chance.randrange(4))
        self.turn, self.queue = None, []
        for transaction in running:
            transaction.is_over = True
        for server in self.world.servers:
            server.lost()

    def lose(self, number):
        kept = max(0, len(self.rows) - number)
        gone = {(desk, key) for desk, key, *_ in self.rows[kept:]}
        # A transaction is lost whole.
        kept = min([self.keys[desk, key].start - 1 for desk, key in gone], default=kept)
        del self.rows[kept:]
        self.changes = {position: feed for position, feed in self.changes.items() if position <= kept}
        for desk in [*self.world.desks, self.world.tower]:
            for body in desk.bodies:
                there = self.keys.get((desk.name, body.key))
                if there is not None and there.start > kept:
                    del self.keys[desk.name, body.key]
                    body.is_lost = True

    def end(self, transaction):
        """A transaction ends: committed, or not, and its server hears of it, or not."""
        if transaction.is_over:
            return
        chance, calm = self.world.chance, self.world.is_calm
        fate = "well" if calm else chance.choices(("well", "nothing", "lost", "kept"), (85, 5, 5, 5))[0]
        said = None
        if fate in ("well", "kept") and transaction.commit.batches[0].change is not None:
            said = self.change(transaction)
            if said is None:
                self.world.clock.at(0.1, self.end, transaction)
                return
        elif fate in ("well", "kept"):
            said = self.append(transaction.commit.batches)
            if said is None:
                fate = "refused"
        self.turn, transaction.is_over = None, True
        transaction.server.ended(transaction, fate, said)
        self.next()


class Server:
    """The hands of one writer, as sqlite.py and postgres.py are: it carries out its orders, and tells it what happened."""

    def __init__(self, world):
        self.world, self.machine = world, world.machine
        self.writer = self.machine.Writer("starting")
        self.following, self.life = world.following.Following(), world.life.Life()
        self.asked, self.transaction, self.is_dead = {}, None, False
        # All days: records, each with what the sequencer said of it; the present one: its number, and the lines with which it began and
        # those that were accepted since; and the process, with what it was told.
        self.day, self.number, self.lines, self.process, self.reads = [], 0, [], None, 0
        self.world.clock.at(0.1, self.reopened)
        self.world.clock.at(1, self.look)

    def look(self):
        """Reads what is new, hands it to the sequencer, and looks again later."""
        if self.is_dead:
            return
        anew = self.following.wanted()
        if anew and self.is_linked:
            self.following.read_anew()
        if self.is_linked and (anew or len(self.world.engine.rows) > len(self.day)):
            self.reads += 1
            self.world.clock.at(self.world.chance.choice((0.001, 0.1, 1)), self.have_read, self.reads, anew, len(self.day))
        self.world.clock.at(3, self.look)

    def have_read(self, number, anew, after):
        """Rows come, of a link that was lost meanwhile, or not."""
        if self.is_dead or number != self.reads:
            if anew and not self.is_dead:
                self.world.clock.at(0.5, self.again)
            return
        rows = [self.world.engine.record_at(position) for position in range(1 if anew else after + 1, len(self.world.engine.rows) + 1)]
        self.following.handed_on(rows)
        if anew:
            self.day, self.number, self.lines, self.process = [], 0, [], None
            self.following.wanted()
        self.reply(rows)

    def again(self):
        """The whole day, which wasn't read, is read again as soon as there is a link."""
        if not self.is_dead:
            self.following.read_anew()
            self.reads += 1
            self.world.clock.at(0.1, self.have_read, self.reads if self.is_linked else -1, True, 0)

    def carry(self):
        """What the next day begins with, as the day is here."""
        return carried(self.lines)

    def begin(self, change):
        """The next day begins, if the log has its change still. Whether it has."""
        feed = self.world.engine.changes.get(change.position)
        if feed is None:
            return False
        law(feed == self.carry(), "all servers carry over alike", change.position)
        self.day.append((change, None))
        self.number, self.lines, self.process = self.number + 1, list(feed), None
        return True

    def reply(self, rows):
        """The sequencer, or the next one, replies to rows, up to each change of day."""
        rest = rows
        while rest and not self.is_dead:
            change = next((number for number, record in enumerate(rest) if record.is_change), len(rest))
            if change == 0:
                if not self.begin(rest[0]):
                    return
                rest = rest[1:]
                continue
            behind, rest = rest[change:], rest[:change]
            self.reply_to(rest)
            rest = behind

    def reply_to(self, rows):
        """The sequencer, or the next one, replies to rows of one day."""
        rest = rows
        while rest and not self.is_dead:
            if self.process is None:
                accepted = self.lines
                self.process = Sequencer(self.world, accepted)
                self.life.started(len(accepted))
                law(isinstance(self.life.heard({"ready": self.process.accepted}), self.world.life.Ready), "it is ready with the day")
            self.life.given(rest)
            for number, record in enumerate(rest):
                said = self.process.said(record.line)
                order = self.world.life.End("it ended") if said is None else self.life.heard(said)
                if isinstance(order, self.world.life.End):
                    self.process, rest = None, rest[number:]
                    if not self.life.ended(self.world.clock.now):
                        self.world.kill(self.world.servers.index(self))
                    break
                law(order.record == record, "a reply goes to its own record", order.record, record)
                self.day.append((record, order.word))
                self.lines += [] if order.word else [record.line]
            else:
                rest = []

    def lost(self):
        """The database is away."""
        if self.is_dead:
            return
        self.following.lost()
        self.is_linked, self.reads = False, self.reads + 1
        if self.transaction is not None:
            self.transaction.is_heard, self.transaction = False, None
        self.do(self.writer.lost("away"))
        self.world.clock.at(self.world.chance.uniform(0.1, 3), self.reopened)

    def offer(self, attempt):
        ticket = next(self.world.tickets)
        self.asked[ticket] = attempt
        why = self.following.refusal()
        if why is not None:
            del self.asked[ticket]
            attempt.desk.told(attempt, self.machine.nothing(why))
            return ticket
        law(not self.hangs(), "503 while a commit hangs", "in the database")
        self.do(self.writer.offered(ticket, attempt.batch))
        law(self.transaction is None or not self.transaction.is_overdue or attempt.is_over, "503 while a commit hangs", "in the file")
        self.world.clock.at(self.machine.WAIT_SECONDS, self.waited, ticket)
        return ticket

    def hangs(self):
        """Whether a commit that took too long still waits in the database. The server looks each second, so it may not know yet that it ended."""
        return self.left is not None and not self.left.is_over

    def waited(self, ticket):
        if not self.is_dead:
            self.do(self.writer.waited(ticket))

    def leave(self, ticket):
        """The desk goes away."""
        if not self.is_dead and self.asked.pop(ticket, None):
            self.do(self.writer.gone(ticket))

    def do(self, orders):
        law(self.writer.waiting <= WAITING, "no bound is passed", self.writer.waiting)
        for order in orders:
            if isinstance(order, self.machine.Commit):
                law(self.transaction is None, "one transaction at a time")
                law(0 < len(order.batches) <= TOGETHER, "no bound is passed", len(order.batches))
                law(len(order.batches) == 1 or not any(batch.change for batch in order.batches), "a change of day goes alone")
                self.transaction = Transaction(self, order)
                self.world.clock.at(self.machine.COMMIT_SECONDS, self.overdue, self.transaction)
                self.world.begins(order)
                self.world.engine.begin(self.transaction)
            elif attempt := self.asked.pop(order.ticket, None):
                attempt.desk.told(attempt, order.said)
                self.do(self.writer.gone(order.ticket))

    def overdue(self, transaction):
        if self.is_dead or self.transaction is not transaction:
            return
        transaction.is_overdue = True
        if self.world.engine.is_file:
            self.do(self.writer.overdue(transaction.commit.number, "it hangs"))
        else:
            # The connection is closed; the database goes on.
            self.left = transaction
            self.do(self.writer.failed(transaction.commit.number, self.machine.Outcome.UNKNOWN, "away"))
            self.lost()

    def ended(self, transaction, fate, said):
        if self.is_dead or not transaction.is_heard:
            return
        self.transaction, number, outcome = None, transaction.commit.number, self.machine.Outcome
        if fate == "well":
            self.do(self.writer.committed(number, said))
        elif fate == "refused":
            self.do(self.writer.failed(number, outcome.REFUSED, "refused"))
            law(self.writer.closed is None, "a refused batch takes nothing else along", "the link")
        else:
            self.do(self.writer.failed(number, outcome.NOTHING if fate == "nothing" else outcome.UNKNOWN, "away"))
            self.lost()

    left = None
    is_linked = False

    def reopened(self):
        """A new link, to the database, or to one of the past."""
        engine, last = self.world.engine, self.following.last
        if self.is_dead or self.transaction is not None or self.is_linked:
            return
        is_past = engine.past is not None and self.following.timeline > engine.past[0] and self.world.chance.random() < 0.3
        timeline, rows = engine.past if is_past else (engine.timeline, engine.rows)
        if self.following.is_past(timeline):
            self.world.clock.at(1, self.reopened)
            return
        law(not is_past, "a database of the past isn't used")
        is_committing = self.left is not None and not self.left.is_over
        self.following.linked(self.world.following.Seen(timeline, engine.record_at(last.position if last else 0, rows), is_committing))
        self.is_linked = True
        self.do(self.writer.opened())
        if is_committing:
            self.world.clock.at(1, self.still_committing)

    def still_committing(self):
        if not self.is_dead and self.is_linked and self.following.is_committing:
            self.following.committed_before(not self.left.is_over)
            self.world.clock.at(1, self.still_committing)

    def kill(self):
        if self.is_dead:
            return
        self.is_dead = True
        for attempt in list(self.asked.values()):
            attempt.desk.left(attempt)


class Attempt:
    """One sending of a body."""

    def __init__(self, desk, body, batch, began):
        self.desk, self.body, self.batch, self.began, self.is_over, self.ticket, self.server = desk, body, batch, began, False, 0, None
        self.was_running = False


class Body:
    """What a desk sends under one key. `may_be`: it may be in the log; `looked`: when the desk found that it isn't."""

    def __init__(self, desk, number, lines, is_wrong):
        self.desk, self.key, self.lines, self.is_wrong = desk, f"{number}", lines, is_wrong
        self.positions, self.is_running, self.may_be, self.looked, self.is_lost = None, 0, False, None, False


class Desk:
    """A desk, which sends its bodies one after the other."""

    def __init__(self, world, name):
        self.world, self.name, self.bodies, self.body = world, name, [], None
        self.left_to_send = world.chance.randrange(2, 6)
        world.clock.at(world.chance.uniform(0, 20), self.next)

    def next(self):
        if self.left_to_send and not (self.world.is_calm and self.left_to_send < 1):
            self.left_to_send -= 1
            chance, number = self.world.chance, len(self.bodies)
            lines = [f"{self.name}{number}{letter}" for letter in "abc"[:chance.randrange(1, 4)]]
            self.body = Body(self, number, lines, chance.random() < 0.25)
            self.bodies.append(self.body)
            self.send()

    def send(self):
        body, world = self.body, self.world
        server = world.chance.choice(world.servers)
        if server.is_dead:
            world.clock.at(1, self.send)
            return
        batch = Batch(self.name, [("AP", line) for line in body.lines], body.key, -1 if body.is_wrong else 60_000)
        attempt = Attempt(self, body, batch, world.clock.now)
        attempt.server, body.looked = server, None
        world.attempts[id(batch)] = attempt
        if not world.is_calm and world.chance.random() < 0.4:
            world.clock.at(world.chance.choice((0.0, 0.02, 1, 5, 30)), self.leave, attempt)
        attempt.ticket = server.offer(attempt)

    def leave(self, attempt):
        if not attempt.is_over:
            attempt.server.leave(attempt.ticket)
            self.left(attempt)

    def left(self, attempt):
        """It has no answer, and none will come."""
        if not attempt.is_over:
            attempt.is_over = True
            attempt.body.may_be |= attempt.body.is_running > 0
            self.look_and_go_on(attempt.body)

    def told(self, attempt, said):
        world, body = self.world, attempt.body
        attempt.is_over = True
        waited, most = world.clock.now - attempt.began, world.machine.WAIT_SECONDS + world.machine.COMMIT_SECONDS + 0.001
        law(waited <= most, "what waits is answered in time", waited)
        if isinstance(said, range):
            law(not body.is_wrong and len(said) == len(body.lines), "what was answered is in the log", body.key)
            found = [row[:3] for row in world.engine.rows[said.start - 1:said.stop - 1]]
            law(found == [(self.name, body.key, line) for line in body.lines], "what was answered is in the log", said, found)
            body.positions = said
            world.clock.at(world.chance.uniform(0, 5), self.next)
            return
        law(said.status in (503, 504), "503 or 504", said.status)
        law(said.status == 503 or attempt.was_running, "504 only of what was given to the log", body.key)
        if str(said) == world.machine.REFUSED:
            law(body.is_wrong, "a refused batch takes nothing else along", self.name, body.key)
            world.clock.at(1, self.next)
            return
        if said.status == 504:
            body.may_be |= body.is_running > 0
        else:
            law(body.may_be or (self.name, body.key) not in world.engine.keys, "what was answered 503 isn't in the log", self.name, body.key)
        self.look_and_go_on(body)

    def look_and_go_on(self, body):
        """It looks whether its records are in the log, and sends them again or gives up."""
        world = self.world
        if (self.name, body.key) not in world.engine.keys and not body.is_running:
            body.looked = world.clock.now
        is_patient = not body.is_wrong and (world.is_calm or world.chance.random() < 0.7)
        world.clock.at(world.chance.uniform(0.1, 3), self.send if is_patient else self.next)


class Tower:
    """Who changes the day, now and then, at any server."""

    def __init__(self, world):
        # A chance of its own, so that a seed has the desks that it had without changes.
        self.world, self.name, self.bodies, self.chance = world, "tower", [], random.Random(world.chance.getstate()[1][1])
        for _ in range(self.chance.choice((0, 0, 1, 2, 4))):
            world.clock.at(self.chance.uniform(1, 70), self.begin)

    def begin(self):
        world = self.world
        server = self.chance.choice(world.servers)
        if server.is_dead:
            world.clock.at(1, self.begin)
            return
        body = Body(self, len(self.bodies), [f"DAY,{server.number + 1}"], False)
        self.bodies.append(body)
        batch = Batch(self.name, [("AP", body.lines[0])], body.key, change=Change(len(server.day) + 1, b"", tuple(server.carry())))
        attempt = Attempt(self, body, batch, world.clock.now)
        attempt.server = server
        world.attempts[id(batch)] = attempt
        if not world.is_calm and self.chance.random() < 0.3:
            world.clock.at(self.chance.choice((0.0, 0.02, 1, 5)), Desk.leave, self, attempt)
        attempt.ticket = server.offer(attempt)

    def left(self, attempt):
        attempt.is_over = True

    def told(self, attempt, said):
        """It began, or it didn't; a day that may have begun is in the log or not, and everybody sees which."""
        attempt.is_over, body = True, attempt.body
        if isinstance(said, range):
            law(said.start in self.world.engine.changes, "a day that was told began", said)
            body.positions = said
            return
        law(said.status in (409, 503, 504), "409, 503 or 504", said.status)
        is_there = (self.name, body.key) in self.world.engine.keys
        law(said.status == 504 or body.is_running or not is_there, "a day that was told not to begin hasn't begun", body.lines)


class World:
    """One schedule."""

    def __init__(self, seed, machine=real_writer, following=real_following, life=real_life):
        self.chance, self.clock, self.machine = random.Random(seed), Clock(), machine
        self.following, self.life = following, life
        machine.MOST_TOGETHER, machine.MOST_WAITING = TOGETHER, WAITING
        self.tickets, self.attempts, self.is_calm = itertools.count(1), {}, False
        self.engine = Engine(self)
        self.servers = [Server(self) for _ in range(1 if self.engine.is_file else 2)]
        self.tower = Tower(self)
        self.desks = [Desk(self, name) for name in "pqrstuvw"[:self.chance.randrange(2, 9)]]
        for _ in range(self.chance.randrange(3)):
            self.clock.at(self.chance.uniform(1, 60), self.kill, self.chance.randrange(len(self.servers)))
        if not self.engine.is_file:
            for _ in range(self.chance.randrange(3)):
                self.clock.at(self.chance.uniform(1, 60), self.engine.fail_over)

    def begins(self, commit):
        """A transaction begins: each of its batches has a desk that waits for it."""
        for batch in commit.batches:
            attempt = self.attempts[id(batch)]
            attempt.body.is_running += 1
            attempt.was_running = True
            law(attempt.body.looked is None, "what a desk didn't find never comes later", attempt.desk.name, attempt.body.key)
            law(not attempt.is_over, "what a desk doesn't wait for is never taken", attempt.desk.name, attempt.body.key)

    def kill(self, number):
        if self.servers[number].is_dead:
            return
        self.servers[number].kill()
        # What it was committing ends, but nobody hears of it.
        self.clock.at(self.chance.uniform(0.5, 5), self.start, number)

    def start(self, number):
        if self.engine.is_file and self.engine.turn is not None:
            # The file's locks end with the process.
            self.engine.turn.is_heard = False
        self.servers[number] = Server(self)

    def run(self):
        self.clock.run(STORMY)
        self.is_calm = True
        self.clock.run(STORMY + CALM)
        rows, keys = self.engine.rows, self.engine.keys
        law(len(rows) == sum(map(len, keys.values())), "what is in the log is there once")
        for desk in self.desks:
            order = [body.positions.start for body in desk.bodies if body.positions is not None and not body.is_lost]
            law(order == sorted(order), "a desk's order", desk.name, order)
            for body in desk.bodies:
                if body.is_lost:
                    continue
                there = keys.get((desk.name, body.key))
                law(body.positions is None or there == body.positions, "what was answered is in the log once", there, body.positions)
                law(there is None or body.positions is not None or body.may_be, "what was answered 503 never comes", desk.name, body.key)
        changes = [line for _, _, line, _ in rows if line.startswith("DAY,")]
        law(changes == [f"DAY,{number}" for number in range(1, len(changes) + 1)], "one change a day", changes)
        law(len(changes) == len(self.engine.changes), "what was carried over stands beside each change")
        for desk in self.desks:
            for body in desk.bodies:
                of = [] if body.positions is None or body.is_lost else [
                    sum(change <= position for change in self.engine.changes) for position in body.positions]
                law(len(set(of)) <= 1, "what was answered is in one day", desk.name, body.key)
        state, replies, lines = 0, [], []
        for position, (_, _, line, _) in enumerate(rows, 1):
            record = self.engine.record_at(position)
            if record.is_change:
                replies.append((record, None))
                lines, state = carried(lines), 0
                for line in lines:
                    state = zlib.crc32(line.encode(), state)
                continue
            word = word_of(state, line)
            replies.append((record, word))
            state, lines = (state, lines) if word else (zlib.crc32(line.encode(), state), [*lines, line])
        for server in self.servers:
            law(not server.is_dead and server.day == replies, "all servers tell the one day of the log", len(server.day), len(replies))
        law(not any(server.asked for server in self.servers), "each desk has an answer")
        return len(rows)


def simulate(seed, **machines):
    """One schedule, by its seed. Raises Broken. How many records it had. An edited machine: `machine` (the writer), `following`, `life`."""
    try:
        return World(seed, **machines).run()
    except Broken as broken:
        raise Broken(f"seed {seed}: {broken}") from None


def main(count, first):
    began, rows, broken = time.monotonic(), 0, 0
    for seed in range(first, first + count):
        try:
            rows += simulate(seed)
        except Exception as fault:
            broken += 1
            print(f"{type(fault).__name__}: {fault} (seed {seed})", flush=True)
    print(f"{count} schedules from seed {first}, {rows} records, {broken} broken, {time.monotonic() - began:.0f} s")
    return broken > 0


if __name__ == "__main__":
    sys.exit(main(int((sys.argv[1:] or ["20000"])[0]), int((sys.argv[2:] or ["0"])[0])))
