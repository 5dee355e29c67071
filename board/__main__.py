"""`cdmboard`: its words, its start and its end."""
import argparse
import asyncio
import contextlib
import errno
import fcntl
import functools
import glob
import json
import os
import resource
import secrets
import shutil
import signal
import socket
import ssl
import stat
import sys
import tempfile
from collections.abc import AsyncIterator, Awaitable, Callable, Iterator
from pathlib import Path
from types import ModuleType

from aiohttp import web

from board import clock, hosts, postgres, sqlite
from board.answers import LIMITED, Answers, asked, day_of
from board.callers import Callers
from board.connections import is_loopback
from board.desks import digest, read_desks
from board.events import Events
from board.guard import HEADERS, Door, Guard, check_library
from board.carrying import carried_over
from board.chain import begun, first_of, why_none
from board.changing import time_of
from board.log import MOST_RECORDS, Batch, Change, Log, Record, rules_of
from board.notify import Notifier
from board.past import Past, spans_of
from board.replies import Keeper, check_length, day_of_log, reply_again
from board.sequencer import MOST_JOURNAL, Sequencer, place_with_room
from board.telling import Teller
from board.turns import Turns
from board.views import Views
from board.web import Board
from board.words import Fault, Problem, lines_of, tell

PROGRAM = os.environ.get("CDMSEQ", "")
# Seconds that the audit has at the end.
AUDIT_SECONDS = 5.0
MEMORY = "/dev/shm" if os.path.isdir("/dev/shm") else tempfile.gettempdir()


def words() -> argparse.Namespace:
    """The words of the command line. Ends with status 2 if they are wrong."""
    parser = argparse.ArgumentParser("cdmboard")
    commands = parser.add_subparsers()

    def command(name: str, run: Callable[[argparse.Namespace], Awaitable[None]], *files: str) -> argparse.ArgumentParser:
        made = commands.add_parser(name, prog=f"cdmboard {name}".removesuffix(" serve"), allow_abbrev=False)
        made.set_defaults(run=run)
        for file in files:
            made.add_argument(file)
        if "log" in files:
            made.add_argument("--board", default="", help="the board's name in the log")
        return made

    server = command("serve", serve, "airport", "log")
    server.epilog = "Also: cdmboard import | export | backup | verify | audit | log init | token, each with --help."
    server.add_argument("--desks", metavar="FILE")
    server.add_argument("--listen", metavar="HOST:PORT", default="127.0.0.1:8270")
    server.add_argument("--name", metavar="HOST", action="append", default=[])
    server.add_argument("--clock", action="store_true", help="takes the machine's UTC minutes")
    server.add_argument("--day-at", metavar="HH:MM", type=time_of, help="changes the day at this time, UTC, from 01:00 to 21:59")
    sealed = server.add_mutually_exclusive_group()
    sealed.add_argument("--tls", nargs=2, metavar=("CERT", "KEY"))
    sealed.add_argument("--behind-proxy", action="store_true")
    command("import", take_in, "airport", "log", "feed")
    forms = command("export", give_out, "log").add_mutually_exclusive_group()
    forms.add_argument("--all", action="store_true", help="every record, with desk, time and reply")
    forms.add_argument("--raw", action="store_true", help="every record as it is in the log, without asking the program")
    forms.add_argument("--airport", action="store_true", help="the day's airport file")
    commands.choices["export"].add_argument("--day", metavar="YYYY-MM-DD", help="of one day; otherwise the last one, or with --all and --raw all")
    command("backup", back_up, "log", "file")
    command("verify", verify, "log")
    command("audit", give_audit, "log")
    command("log", postgres.init).add_argument("init", choices=["init"])
    commands.choices["log"].add_argument("log", metavar="postgresql://..")
    command("token", token)
    said = sys.argv[1:]
    return parser.parse_args(said if said[:1] and said[0] in commands.choices else ["serve", *said])


def read(path: str) -> bytes:
    try:
        return Path(path).read_bytes()
    except OSError as fault:
        raise Fault(f"cannot read {path} ({fault.strerror})") from None


def own_file(path: str, flags: int) -> int:
    """Opens a file of this user's own, without waiting: anybody can make a pipe of that name. Raises OSError."""
    opened = os.open(path, flags | os.O_NONBLOCK | os.O_NOFOLLOW | os.O_CLOEXEC)
    found = os.fstat(opened)
    if not stat.S_ISREG(found.st_mode) or found.st_uid != os.geteuid():
        os.close(opened)
        raise PermissionError(errno.EPERM, "no file of this user", path)
    return opened


@contextlib.contextmanager
def folder_of(name: str, airport: bytes) -> Iterator[str]:
    """A folder in memory with the airport file. What a killed server of the same log left is removed; another that runs keeps
    its own, by a lock on that file, which has its name only once it is locked."""
    for old in (old for place in {MEMORY, tempfile.gettempdir()} for old in glob.glob(f"{place}/cdmboard-{name}-*/airport.csv")):
        with contextlib.suppress(OSError), open(old, opener=own_file) as left:
            fcntl.flock(left, fcntl.LOCK_EX | fcntl.LOCK_NB)
            shutil.rmtree(os.path.dirname(old))
    place = place_with_room(len(airport) + MOST_JOURNAL, MEMORY)
    with tempfile.TemporaryDirectory("", f"cdmboard-{name}-", place, ignore_cleanup_errors=True) as folder:
        with open(f"{folder}/airport", "wb", 0) as held:
            fcntl.flock(held, fcntl.LOCK_EX)
            held.write(airport)
            os.rename(f"{folder}/airport", f"{folder}/airport.csv")
            yield folder


def log_at(place: str, board: str) -> Log:
    """A log, which isn't open yet."""
    if hosts.is_url(place):
        return postgres.PostgresLog(place, board)
    return sqlite.FileLog(place, board)


def engine_of(place: str) -> ModuleType:
    """The module that reads and copies logs of a place."""
    return postgres if hosts.is_url(place) else sqlite


@contextlib.asynccontextmanager
async def log_of(options: argparse.Namespace) -> AsyncIterator[tuple[Log, str]]:
    """The log and its folder, while they are used. Raises Fault."""
    airport = read(options.airport)
    version = await asked("/", PROGRAM, "--version")

    async def accept() -> None:
        """A new log is bound to its airport file for good, so to none that the program refuses. Raises Fault."""
        with folder_of("new", airport) as folder:
            await day_of(folder, PROGRAM, [])
    log = log_at(options.log, options.board)
    await log.open(airport, version.decode("ascii", "replace").strip(), accept)
    try:
        with folder_of(log.id, log.airport) as folder:
            yield log, folder
    finally:
        await log.close()


async def token(_: argparse.Namespace) -> None:
    """`token`: a new one, and its line for desks.toml."""
    new = secrets.token_urlsafe(32)
    print(f'{new}\ntoken = "sha256:{digest(new).hex()}"')


async def take_in(options: argparse.Namespace) -> None:
    """`import`: a feed as the first records of a log. All of them have to be accepted."""
    feed = [line.partition(",") for line in lines_of(read(options.feed), MOST_RECORDS, 104)]
    async with log_of(options) as (log, folder):
        if await log.whole():
            raise Fault(f"{options.log} has records already")
        day = await day_of(folder, PROGRAM, [Record(number, "import", role, line) for number, (role, _, line) in enumerate(feed, 1)])
        for record in day.records:
            if record.word is not None:
                raise Fault(f"{options.feed} record {record.position}: {record.word} (see cdmseq check)")
        await log.append(Batch("import", [(role, line) for role, _, line in feed], end=len(feed)))


async def give_out(options: argparse.Namespace) -> None:
    """`export`: the accepted records of a day, or all, or its airport file. Raises Fault."""
    changes, _, records = await engine_of(options.log).read_log(options.log, options.board)
    with folder_of("export", changes[0].airport) as folder:
        parts = await parts_of(folder, changes, records, options.raw)
        if options.day is not None:
            first = (await day_of(folder, PROGRAM, [])).date
            dates = [span.date for span in spans_of(first, [some[0] for _, some in parts[1:]])]
            parts = [part for part, date in zip(parts, dates, strict=True) if date == options.day]
            if not parts:
                raise Fault(f"{options.log} has no day {options.day}")
        for change, some in parts if options.all or options.raw else parts[-1:]:
            await give_part(options, folder, change, some)


async def give_part(options: argparse.Namespace, folder: str, change: Change, records: list[Record]) -> None:
    """What `export` prints of a day. Raises Fault."""
    if options.airport:
        sys.stdout.buffer.write(change.airport)
    elif options.raw:
        for record in records:
            print(json.dumps(dict(zip(("position", "desk", "role", "line", "at"), record)), separators=(",", ":")))
    else:
        day = await day_of(folder, PROGRAM, records, change=change)
        print(day.texts(day.records).decode() if options.all else day.feed(), end="")


async def parts_of(folder: str, changes: list[Change], records: list[Record], is_raw: bool = False) -> list[tuple[Change, list[Record]]]:
    """The days of a log: what begins each, and its records; `is_raw`: as they stand, without asking the program. Raises Fault, OSError."""
    made = {change.position: change for change in changes}

    async def why(record: Record) -> str:
        return await why_none(folder, PROGRAM, record, made.get(record.position))
    days = [record for record in records if record.is_change]
    if not is_raw:
        days = await begun(first_of(changes[0].airport), days, why)
        while days and await why(days[-1]):
            days.pop()
    firsts = [0, *(record.position for record in days)]
    began = set(firsts)
    records = [record._replace(is_change=record.position in began) for record in records]
    return [(made[first], records[max(1, first) - 1:end - 1]) for first, end in zip(firsts, [*firsts[1:], len(records) + 1], strict=True)]


async def give_audit(options: argparse.Namespace) -> None:
    """`audit`: who did what, and from where."""
    told = await engine_of(options.log).read_audit(options.log, options.board)
    print(told.decode(), end="")


async def back_up(options: argparse.Namespace) -> None:
    """`backup`: a whole copy of a log as a new file of SQLite, also while it is served. Raises Fault."""
    try:
        made = os.open(options.file, os.O_CREAT | os.O_EXCL | os.O_WRONLY | os.O_CLOEXEC, 0o600)
    except OSError as fault:
        raise Fault(f"cannot make {options.file} ({fault.strerror})") from None
    try:
        await engine_of(options.log).copy_log(options.log, options.board, options.file)
        os.fsync(made)
    except BaseException:
        os.unlink(options.file)
        raise
    finally:
        os.close(made)


async def verify(options: argparse.Namespace) -> None:
    """`verify`: each row of a log is read and given to the program, whose replies have to be those of the digests. Raises Fault."""
    digests = await engine_of(options.log).read_digests(options.log, options.board)
    changes, made_by, records = await engine_of(options.log).read_log(options.log, options.board)
    version = (await asked("/", PROGRAM, "--version")).decode("ascii", "replace").strip()
    if rules_of(made_by) != rules_of(version):
        raise Fault(f"{options.log} was made by another program: {made_by}, and this is {version}")
    accepted = 0
    day = None
    with folder_of("verify", changes[0].airport) as folder:
        parts = await parts_of(folder, changes, records)
        for change, some in parts:
            if day is not None and await carried_over(folder, PROGRAM, day, change.airport) != change.feed:
                raise Fault(f"{options.log}: the change of day at position {change.position} carried over otherwise than this program does")
            day = await day_of(folder, PROGRAM, some, change=change)
            await reply_again(folder, PROGRAM, day)
            accepted += len(day.lines) - len(change.lines)
            if change is parts[-1][0]:
                check_length(day, digests, options.log)
            day.digests.compare(digests, options.log)
    more = f", {len(parts)} days" if len(parts) > 1 else ""
    print(f"{len(records)} records, {accepted} accepted, {len(digests)} digests of replies{more}")


def listening(options: argparse.Namespace) -> tuple[str, int, ssl.SSLContext | None]:
    """Where the server listens, if it may. Raises Fault."""
    host, _, port = options.listen.rpartition(":")
    host = host.strip("[]")
    is_local = is_loopback(host.strip("[]"))
    if not port.isdecimal() or int(port) > 65_535 or not host:
        raise Fault("--listen is HOST:PORT", 2)
    if not options.desks and (options.behind_proxy or not is_local):
        raise Fault("without --desks it serves this machine alone, and behind no proxy", 2)
    if not is_local and not (options.tls or options.behind_proxy):
        raise Fault("another address than this machine's needs --tls or --behind-proxy", 2)
    return host, int(port), sealed_by(options.tls) if options.tls else None


def sealed_by(files: list[str]) -> ssl.SSLContext:
    """TLS with this certificate and key. Raises Fault."""
    sealed = ssl.create_default_context(ssl.Purpose.CLIENT_AUTH)
    try:
        sealed.load_cert_chain(files[0], files[1], "")
    except OSError as fault:
        raise Fault(f"{' '.join(files)}: {fault}") from None
    return sealed


async def serve(options: argparse.Namespace) -> None:
    """Serves a board until it is told to end, or something that it needs has ended. Raises Fault."""
    loop = asyncio.get_running_loop()
    starting = asyncio.current_task()
    assert starting is not None
    loop.add_signal_handler(signal.SIGHUP, tell, "cdmboard: it is only just starting; nothing is read again")
    for number in (signal.SIGTERM, signal.SIGINT):
        loop.add_signal_handler(number, starting.cancel)
    host, port, sealed = listening(options)
    desks = read_desks(options.desks)
    notifier = Notifier()
    resource.setrlimit(resource.RLIMIT_NOFILE, (resource.getrlimit(resource.RLIMIT_NOFILE)[1],) * 2)
    async with log_of(options) as (log, folder):
        # Where the system forbids what questions are run with, nothing would be answered.
        kinds = await asked(folder, PROGRAM, "kinds", "--format", "json", limits=LIMITED)
        day = await day_of_log(folder, PROGRAM, log, kinds)
        past = Past(folder, PROGRAM, log, day)
        names = (host, "localhost", socket.gethostname(), *options.name)
        scheme = "https" if sealed or options.behind_proxy else "http"
        callers = Callers(desks, log, {name.lower() for name in names}, scheme, options.behind_proxy)
        sequencer = Sequencer(PROGRAM, folder, log, day, past)
        answers = Answers(PROGRAM, folder, day, past.of_base)
        board = Board(callers, log, day, sequencer, answers, Events(log.id, day))
        runner = web.AppRunner(board.application())
        door = Door(host, port, options.behind_proxy, desks.limits, options.turns)
        await runner.setup()
        assert (manager := runner.server) is not None
        check_library(manager, door)
        server = await loop.create_server(
            lambda: Guard(manager, door, options.behind_proxy), sock=door, ssl=sealed, ssl_handshake_timeout=HEADERS if sealed else None)
        loop.add_signal_handler(signal.SIGHUP, notifier.reload, functools.partial(again, options, board, door, sealed))
        at = f"{scheme}://{f'[{host}]' if ':' in host else host}:{door.getsockname()[1]}/"
        try:
            await run(board, at, options, notifier, Keeper(folder, PROGRAM, log, day))
        except ExceptionGroup as faults:
            raise faults.exceptions[0] from None
        finally:
            board.records.is_closing = True
            server.close()
            board.events.end()
            day.end()
            await manager.shutdown(2)
            await runner.cleanup()


async def run(board: Board, address: str, options: argparse.Namespace, notifier: Notifier, keeper: Keeper) -> None:
    """Runs all that a board has running, until it is told to end and each record has its reply."""
    ending = asyncio.Event()
    loop = asyncio.get_running_loop()
    for number in (signal.SIGTERM, signal.SIGINT):
        loop.add_signal_handler(number, ending.set)
    views = Views(board.answers, board.events)
    async with asyncio.TaskGroup() as group:
        vital = [group.create_task(part) for part in (board.sequencer.run(), board.log.ended())]
        parts = [board.events.run(), views.run(), board.signing.watch(), board.audit.run(), keeper.run(), ready(board, address),
                 notifier.run(board.health.words, vital)]
        parts += [clock.run(board.day, board.records.take)] if options.clock else []
        parts += [board.changing.run(options.day_at)] if options.day_at else []
        tasks = vital + [group.create_task(part) for part in parts]
        await ending.wait()
        notifier.stopping()
        board.records.is_closing = True
        async with asyncio.timeout(20):
            # What another server takes from now on gets its reply there.
            rest = [] if board.log.stale_since else await board.log.rows(board.day.position)
            last = rest[-1].position if rest else 0
            while board.day.position < last and not board.log.stale_since or board.records.waiting():
                await asyncio.sleep(0.02)
        for task in tasks:
            task.cancel()
    await board.audit.end(AUDIT_SECONDS)


async def ready(board: Board, address: str) -> None:
    await board.sequencer.is_ready.wait()
    print(address, flush=True)


def again(options: argparse.Namespace, board: Board, door: Door, sealed: ssl.SSLContext | None) -> None:
    """Reads desks, limits and certificates again, each for itself; the old one stays if the new one is wrong."""
    told = []
    try:
        desks = read_desks(options.desks)
        told += board.callers.desks.changes_to(desks)
        board.callers.desks = desks
        door.places.limits = desks.limits
    except Fault as fault:
        told.append("desks are wrong; the old ones stay")
        tell(f"cdmboard: {fault}; the old one stays")
    try:
        # A key that isn't the certificate's would spoil what is in use, so it is tried beside it.
        if sealed is not None and sealed_by(options.tls):
            sealed.load_cert_chain(*options.tls)
            told.append("certificate is read")
    except Fault as fault:
        told.append("certificate is wrong; the old one stays")
        tell(f"cdmboard: {fault}; the old one stays")
    board.audit.note("read-again", None, None, ", ".join(told) or "nothing changed")
    board.signing.check_displays()


def main() -> int:
    """The exit status."""
    options = words()
    options.turns = Turns()
    teller = Teller()
    teller.start()
    try:
        with asyncio.Runner(loop_factory=lambda: asyncio.SelectorEventLoop(options.turns)) as runner:
            runner.run(options.run(options))
        return 0
    except asyncio.CancelledError:
        return 0
    except (Fault, Problem, OSError) as fault:
        tell(fault if str(fault).startswith("cdmseq: ") else f"cdmboard: {str(fault) or type(fault).__name__}")
        return fault.status if isinstance(fault, Fault) else 1 if isinstance(fault, OSError) else 3
    finally:
        teller.stop()


if __name__ == "__main__":
    sys.exit(main())
