"""Answers to questions about the day: each is made by the program, over the records of one moment."""
import asyncio
import contextlib
import json
import os
import signal
import tempfile
import time
from asyncio.subprocess import DEVNULL, PIPE, Process
from collections.abc import AsyncIterator, Awaitable, Callable, Sequence
from pathlib import Path
from typing import NamedTuple
from weakref import WeakValueDictionary

from board.day import Day
from board.log import Change, Record
from board.metrics import QUESTIONS
from board.places import Places, Ticket
from board.program import same
from board.words import Fault, Kinds, Problem, refuse, tell

MOST_QUESTIONS = 16
MOST_NAMELESS_QUESTIONS = 64
MOST_KEPT = 256
MOST_KEPT_BYTES = 32 << 20
MOST_OUTPUT = 32 << 20
READ_BYTES = 64 << 10
PLACE_SECONDS = 10.0
RUN_SECONDS = 10.0
# A run that takes so long in all is none that answers.
STUCK_SECONDS = 3 * RUN_SECONDS
START_SECONDS = 60.0
# A question mustn't outlive a server that is killed, leaves the processors to the replies, has so much memory at most, and is the first
# that the system kills where memory runs out.
LIMITED = ("/usr/bin/setpriv", "--pdeathsig", "KILL", "/usr/bin/prlimit", f"--as={2 << 30}", "/usr/bin/choom", "-n", "1000", "--",
           "/usr/bin/nice", "-n", "10")


class Question(NamedTuple):
    """Words of the program, over the day of the moment at which it is run, or over the first `accepted` records and one more, `last`; over
    another day than the present one, if `base` names it."""
    command: str
    words: tuple[str, ...] = ()
    scenarios: bytes | None = None
    accepted: int | None = None
    last: str = ""
    base: int | None = None


class Answer(NamedTuple):
    """How a run of the program ended: its status, or HTTP's own if it took too long (504), printed too much (422) or couldn't be run
    (503); standard output, the first line of standard error; and, of an answer about the day, when it was begun, and of which moment it
    is."""
    status: int
    output: bytes
    told: str
    began: float = 0.0
    starts: int = 0
    accepted: int = 0
    position: int = 0
    is_earlier: bool = False


class Answers:
    """A pool of processes, with at most one for a desk, and one for all who have no desk. An answer is for all who asked the same
    before it was begun, and for all who ask the same while the day is as it was. Runs belong to nobody who asks: who goes away leaves
    the others' answers as they are."""

    def __init__(self, program: str, folder: str, day: Day, earlier: Callable[[int], Awaitable[Day]] | None = None) -> None:
        self._program = program
        self._folder = folder
        self._day = day
        self._earlier = earlier
        self._places = Places(max(1, (os.cpu_count() or 2) - 1), MOST_QUESTIONS, MOST_NAMELESS_QUESTIONS)
        self._answers: dict[Ticket, asyncio.Future[Answer]] = {}
        self._runs: dict[asyncio.Task[None], float] = {}
        self._beside = asyncio.Lock()
        self._turns: WeakValueDictionary[object, asyncio.Lock] = WeakValueDictionary()
        self._kept: dict[Question, Answer] = {}
        self._is_closed = False

    @contextlib.asynccontextmanager
    async def turn(self, what: object) -> AsyncIterator[None]:
        """What takes long is made one after the other for each who asks, so that nobody takes all the time. Raises Problem."""
        lock = self._turns.setdefault(what, asyncio.Lock())
        try:
            async with asyncio.timeout(PLACE_SECONDS):
                await lock.acquire()
        except TimeoutError:
            raise _no_place() from None
        try:
            # What is made in a turn may wait for nothing; so others come in between.
            await asyncio.sleep(0)
            yield
        finally:
            lock.release()

    async def ask(self, asker: str, question: Question, is_tower: bool = False) -> tuple[int, Answer]:
        """The position at which it was asked, and the program's answer. The asker is a desk, or @ and an address. Raises Problem."""
        answer = await self._had(asker, question, is_tower)
        if answer.starts != self._day.starts and answer.position > self._day.doubtful:
            # The day has changed meanwhile.
            answer = await self._had(asker, question, is_tower)
        refuse(answer.starts != self._day.starts, 503, "the day began anew; ask again", Retry_After="1")
        return self._day.position if self._is_now(answer) else answer.position, answer

    async def _had(self, asker: str, question: Question, is_tower: bool) -> Answer:
        """An answer that is kept, or a new one. Raises Problem."""
        answer = self._kept.get(question)
        if answer is None or not self._is_now(answer):
            return await self._made_for(Ticket(asker, question, is_tower), question)
        QUESTIONS.labels("kept").inc()
        return answer

    def is_stuck(self) -> bool:
        """Whether a run doesn't come to its end, so that questions aren't answered."""
        return any(time.monotonic() - began > STUCK_SECONDS for began in self._runs.values())

    async def close(self) -> None:
        """Ends what runs, and begins nothing more."""
        self._is_closed = True
        runs = list(self._runs)
        for run_of in runs:
            run_of.cancel()
        await asyncio.gather(*runs, return_exceptions=True)

    async def _made_for(self, ticket: Ticket, question: Question) -> Answer:
        """The answer, once it has its turn. Raises Problem."""
        if not self._places.come(ticket):
            QUESTIONS.labels("too_many").inc()
            raise Problem(429, "too many questions wait already", Retry_After="1")
        loop = asyncio.get_running_loop()
        self._answers[ticket] = loop.create_future()
        late = loop.call_later(PLACE_SECONDS, self._is_late, ticket)
        self._begin()
        try:
            answer = await self._answers[ticket]
        finally:
            late.cancel()
            self._places.leave(ticket)
            del self._answers[ticket]
        QUESTIONS.labels(_outcome(answer)).inc()
        return answer

    def _is_late(self, ticket: Ticket) -> None:
        """A question that hasn't begun yet isn't made any more."""
        if self._places.leave(ticket) and not self._answers[ticket].done():
            QUESTIONS.labels("no_place").inc()
            self._answers[ticket].set_exception(_no_place())

    def _begin(self) -> None:
        """Begins what may begin. The tasks are kept here, since the loop itself holds none."""
        if self._is_closed:
            return
        for ticket in self._places.begin():
            task = asyncio.create_task(self._run(ticket))
            self._runs[task] = time.monotonic()
            task.add_done_callback(self._runs.pop)

    async def _run(self, ticket: Ticket) -> None:
        """Makes an answer for all who wait for it, unless there is one that is as good."""
        question = ticket.what
        assert isinstance(question, Question)
        answer = Answer(503, b"", "the server is ending", starts=self._day.starts)
        try:
            kept = self._kept.get(question)
            answer = kept if kept is not None and self._is_now(kept) else await self._made(question)
        except Exception as fault:
            tell(f"cdmboard: {type(fault).__name__}: {fault}")
            answer = Answer(500, b"", "a fault of the server", starts=self._day.starts)
        finally:
            for one in self._places.end(ticket):
                waiting = self._answers.get(one)
                if waiting is not None and not waiting.done():
                    waiting.set_result(answer)
            self._begin()

    def _is_now(self, answer: Answer) -> bool:
        """Whether an answer is of the day as it is now, and would be the same again."""
        is_same = (answer.starts, answer.accepted) == (self._day.starts, len(self._day.lines)) and not answer.is_earlier
        return is_same and answer.status in (0, 2, 3, 4)

    async def together(self, questions: Sequence[Question]) -> tuple[tuple[int, int], list[Answer]]:
        """Answers of one moment, which is the day's `starts` and a position; no more than up to the first that took too long. They are
        made beside the pool, in a place of their own: no desk's questions wait for them, nor they for a desk's. Raises Problem."""
        async with self._beside:
            moment = self._day.starts, self._day.position
            kept = [self._kept.get(question) for question in questions]
            are_now = [answer for answer in kept if answer is not None and self._is_now(answer)]
            if len(are_now) == len(questions):
                return moment, are_now
            answers = await self._all_made(questions)
            refuse(answers[0].status == 503, 503, answers[0].told, Retry_After="5")
            return moment, answers

    async def _made(self, question: Question) -> Answer:
        """A new answer, which is kept."""
        return (await self._all_made([question]))[0]

    async def _all_made(self, questions: Sequence[Question]) -> list[Answer]:
        """New answers, which are kept, up to the first that took too long. All are over the same records and scenarios."""
        first = questions[0]
        made = dict[Question, Answer]()
        starts = self._day.starts
        began = time.monotonic()
        day = self._day
        if first.base is not None and self._earlier is not None:
            try:
                day = await self._earlier(first.base)
            except Problem as problem:
                return [Answer(503, b"", str(problem), began, starts)]
        accepted = len(day.lines) if first.accepted is None else first.accepted
        position = day.position
        file = day.change.file
        try:
            with tempfile.TemporaryDirectory(dir=self._folder) as folder:
                Path(folder, "feed.csv").write_text(day.feed(accepted) + first.last, "ascii")
                Path(folder, "scenarios.csv").write_bytes(first.scenarios or b"")
                for question in questions:
                    words = (question.command, f"../{file}", "feed.csv", *question.words)
                    ran = await run(folder, RUN_SECONDS, *LIMITED, same(self._program), *words)
                    made[question] = ran._replace(began=began, starts=starts, accepted=accepted, position=position, is_earlier=day is not self._day)
                    if ran.status == 504:
                        break
        except Fault as fault:
            told = Answer(503, b"", str(fault))
            return [told._replace(began=began, starts=starts, accepted=accepted, position=position)]
        except OSError as fault:
            told = Answer(503, b"", f"no room for a question: {fault.strerror}")
            return [told._replace(began=began, starts=starts, accepted=accepted, position=position)]
        self._keep(made)
        return list(made.values())

    def _keep(self, made: dict[Question, Answer]) -> None:
        """Keeps answers, within the bound of what is kept."""
        self._kept = {one: kept for one, kept in self._kept.items() if self._is_now(kept)}
        sizes = [len(answer.output) for answer in (*self._kept.values(), *made.values())]
        if len(self._kept) >= MOST_KEPT or sum(sizes) > MOST_KEPT_BYTES:
            self._kept.clear()
        self._kept |= made


def _no_place() -> Problem:
    return Problem(503, f"no place for this question within {PLACE_SECONDS:.0f} seconds", Retry_After="5")


def _outcome(answer: Answer) -> str:
    return {0: "made", 2: "refused", 3: "refused", 4: "made", 422: "too_large", 504: "too_slow"}.get(answer.status, "failed")


async def run(folder: str, seconds: float, *words: str) -> Answer:
    """Runs the program once in a folder."""
    process = await asyncio.create_subprocess_exec(*words, cwd=folder, stdin=DEVNULL, stdout=PIPE, stderr=PIPE, start_new_session=True)
    assert process.stdout is not None and process.stderr is not None
    try:
        async with asyncio.timeout(seconds):
            output, told = await asyncio.gather(_all(process, process.stdout), _all(process, process.stderr))
            status = await process.wait()
    except TimeoutError:
        return Answer(504, b"", f"the program took longer than {seconds:.0f} seconds")
    finally:
        await ended(process)
    if len(output) > MOST_OUTPUT or len(told) > MOST_OUTPUT:
        return Answer(422, b"", f"the answer has more than {MOST_OUTPUT >> 20} MiB; ask for less at once")
    return Answer(status, output, told.decode("ascii", "replace").partition("\n")[0])


async def _all(process: Process, stream: asyncio.StreamReader) -> bytes:
    """All of a stream. A process that prints more than may be is ended."""
    pieces: list[bytes] = []
    size = 0
    while piece := await stream.read(READ_BYTES):
        if size <= MOST_OUTPUT:
            pieces.append(piece)
            size += len(piece)
        if size > MOST_OUTPUT:
            _kill(process)
    return b"".join(pieces)


def _kill(process: Process) -> None:
    """Kills a process, and what it has begun."""
    with contextlib.suppress(ProcessLookupError):
        os.killpg(process.pid, signal.SIGKILL)


async def ended(process: Process) -> None:
    """Ends a process that hasn't ended. Its pipes are read to their ends: before that the library doesn't say that it ended."""
    streams = [stream for stream in (process.stdout, process.stderr) if stream is not None]
    if process.returncode is None or not all(stream.at_eof() for stream in streams):
        _kill(process)
    for stream in streams:
        while await stream.read(READ_BYTES):
            pass
    await process.wait()


async def asked(folder: str, program: str, *words: str, limits: Sequence[str] = ()) -> bytes:
    """What the program prints at a start. Raises Fault."""
    ran = await run(folder, START_SECONDS, *limits, same(program), *words)
    if ran.status != 0:
        raise Fault(ran.told or f"{' '.join(words)} ended with {ran.status}")
    return ran.output


def put_airport(folder: str, change: Change) -> None:
    """Puts the airport file of a day into a server's folder, where the first one is already. Raises OSError."""
    if change.position:
        Path(folder, f"{change.file}.new").write_bytes(change.airport)
        os.rename(f"{folder}/{change.file}.new", f"{folder}/{change.file}")


async def day_of(folder: str, program: str, records: list[Record], kinds: bytes = b"", change: Change = Change(0, b""),
                 bound: Sequence[str] = ()) -> Day:
    """The day that these records make, behind what its change carried over; `bound`: what bounds the program. Raises Fault, OSError."""
    put_airport(folder, change)
    carried = change.lines
    sent = [record for record in records if not record.is_change]
    with tempfile.TemporaryDirectory(dir=folder) as inside:
        lines = [*carried, *(f"{record.role},{record.line}" for record in sent)]
        Path(inside, "log.csv").write_text("".join(f"{line}\n" for line in lines), "ascii")
        told = await asked(inside, program, "plan", f"../{change.file}", "log.csv", "--format", "json", limits=bound)
    plan = json.loads(told.splitlines()[0])
    words = dict[int, str]()
    for refused in plan["refused"]:
        if refused["record"] <= len(carried):
            raise Fault(f"record {refused['record']} of what was carried over to {plan['day']} is refused: {refused['word']}")
        words[sent[refused["record"] - len(carried) - 1].position] = refused["word"]
    # Beside the server's own thread: a whole day takes it for longer than a desk should wait.
    return await asyncio.to_thread(Day, Kinds(kinds), records, words, change, plan["day"])
