"""Connections to PostgreSQL: to the host that takes commits at present, and the pair of a server, its link.

One connection of a link reads, one commits. A link is used only after its check, and once a call on it fails it isn't used again: a new one
is made, which may lead to another host. No call is ever cancelled. asyncpg would pass that on to the database, and there a commit that waits
for its standby and is cancelled counts as done. A connection that hangs is closed, which the database's process sees only after its commit."""
import asyncio
import contextlib
from collections.abc import AsyncIterator, Awaitable, Callable
from typing import Any, TypeVar
from urllib.parse import urlsplit

from board.hosts import hosts_of, name_of, other_addresses
from board.log import Away
from board.words import Fault
from board.writer import COMMIT_SECONDS

try:
    import asyncpg  # type: ignore[import]
except ImportError:
    asyncpg = None

T = TypeVar("T")
CONNECT_SECONDS = 3.0
READ_SECONDS = 5.0
# What a role or a database may have set otherwise, and would end a commit, or let it see too little.
SETTINGS = {"statement_timeout": "0", "lock_timeout": "0", "idle_in_transaction_session_timeout": "0",
            "idle_session_timeout": "0", "client_connection_check_interval": "0",
            "default_transaction_isolation": "read committed", "jit": "off",
            "tcp_keepalives_idle": "15", "tcp_keepalives_interval": "5", "tcp_keepalives_count": "3"}
TIMELINE = "SELECT ('x' || left(pg_walfile_name(pg_current_wal_lsn()), 8))::bit(32)::integer"
COMMITTING = """SELECT count(*) FROM pg_stat_activity
                WHERE application_name = $1 AND state = 'active' AND pid <> $2"""
# Notices that another server took records, and ended sessions.
CHANNELS = ("cdm_record", "cdm_session")
LOST: tuple[Any, ...] = (OSError,) if asyncpg is None else (
    OSError, asyncpg.InterfaceError, asyncpg.InternalClientError, asyncpg.PostgresConnectionError,
    asyncpg.OperatorInterventionError)
# Classes of SQLSTATE: data exceptions, and violated constraints.
OF_DATA = ("22", "23")
FAULTS = LOST if asyncpg is None else (*LOST, asyncpg.PostgresError)


class Refused(Exception):
    """The database refused a statement, and took nothing of it. `is_of_data`: since it can't be what was sent, whatever else is so."""

    def __init__(self, why: object, is_of_data: bool = False) -> None:
        super().__init__(why)
        self.is_of_data = is_of_data


async def connect(url: str, name: str = "cdmboard") -> Any:
    """A connection to a host that takes commits. Raises Away, Fault."""
    if asyncpg is None:
        raise Fault("python3-asyncpg missing: sudo apt-get install python3-asyncpg", 1)
    try:
        settings = SETTINGS | {"application_name": name}
        connection = await asyncpg.connect(url, timeout=CONNECT_SECONDS, server_settings=settings)
        is_standby = True
        try:
            is_standby = await connection.fetchval("SELECT pg_is_in_recovery()", timeout=READ_SECONDS)
        finally:
            if is_standby:
                connection.terminate()
    except FAULTS as why:
        raise Away(str(why) or type(why).__name__) from None
    # The driver looks for its files in the user's home, which a service may lack.
    except (ValueError, RuntimeError) as why:
        raise Fault(f"{name_of(url)}: {why}", 2) from None
    if is_standby:
        raise Away("a standby")
    return connection


async def finished(connection: Any, seconds: float, call: Awaitable[T]) -> T:
    """What a call on a connection returns. It isn't cancelled: the connection of a call that hangs is closed.
    Raises Away, Refused."""
    task = asyncio.ensure_future(call)
    task.add_done_callback(lambda done: done.cancelled() or done.exception())
    try:
        async with asyncio.timeout(seconds):
            return await asyncio.shield(task)
    except TimeoutError:
        raise Away(f"no answer within {seconds:.0f} seconds") from None
    # A query that was cancelled before its commit changed nothing, and its connection is still there.
    except asyncpg.QueryCanceledError as why:
        raise Refused(why) from None
    except LOST as why:
        raise Away(str(why) or type(why).__name__) from None
    except asyncpg.PostgresError as why:
        raise Refused(why, (why.sqlstate or "")[:2] in OF_DATA) from None
    finally:
        if not task.done():
            connection.terminate()


async def first(url: str, make: Callable[[str], Awaitable[T]]) -> T:
    """What is made of the first host that takes commits. Raises Away, Fault."""
    whys = []
    hosts = hosts_of(url)
    for host in [*hosts, *await other_addresses(hosts)]:
        try:
            return await make(host)
        except Away as why:
            whys.append(f"{urlsplit(host).netloc.rpartition('@')[2] or 'the database'}: {why}")
    raise Away("; ".join(whys))


async def newest(url: str) -> int:
    """The highest timeline of several hosts that take commits at present; 0 where there is no choice. Raises Fault."""
    hosts = hosts_of(url)
    timelines = [0]
    for host in hosts if len(hosts) > 1 else ():
        with contextlib.suppress(Away, Refused):
            connection = await connect(host)
            try:
                timelines.append(await finished(connection, READ_SECONDS, connection.fetchval(TIMELINE)))
            finally:
                connection.terminate()
    return max(timelines)


@contextlib.asynccontextmanager
async def database_of(url: str) -> AsyncIterator[Any]:
    """A connection of one's own to the host that takes commits. Raises Fault."""
    try:
        connection = await first(url, connect)
        try:
            yield connection
        finally:
            connection.terminate()
    except (Away, Refused, *FAULTS) as why:
        raise Fault(f"{name_of(url)}: {why}", 1) from None


class Link:
    """Two connections to one database."""

    def __init__(self, reader: Any, writer: Any) -> None:
        self._reader = reader
        self._writer = writer
        self._reads = asyncio.Lock()
        self.broken = asyncio.Event()
        self.why = "a connection was lost"
        self._warned = ""
        for connection in (reader, writer):
            connection.add_termination_listener(lambda _: self.broken.set())
        writer.add_log_listener(self._warn)

    def _warn(self, _: Any, message: Any) -> None:
        """The database warns of a commit that somebody cancelled: the standby may not have it."""
        self._warned = str(message)

    async def read(self, query: str, *words: object, seconds: float = READ_SECONDS) -> Any:
        """The rows of a query. Raises Away."""
        async with self._reads:
            try:
                return await finished(self._reader, seconds, self._reader.fetch(query, *words))
            except (Away, Refused) as why:
                self.why = str(why)
                self._reader.terminate()
                raise Away(why) from None

    async def write(self, query: str, *words: object) -> Any:
        """The value of a statement that commits. Raises Refused: nothing was taken; Away: it isn't known."""
        self._warned = ""
        value = await finished(self._writer, COMMIT_SECONDS, self._writer.fetchval(query, *words))
        if self._warned:
            raise Away(self._warned)
        return value

    async def greet(self) -> None:
        """Whether the connection that commits is still there. Raises Away, Refused."""
        await finished(self._writer, READ_SECONDS, self._writer.fetchval("SELECT 1"))

    async def listen(self, heard: Any) -> None:
        """Has a call made for each notice that another server took records. Raises Away, Refused."""
        for channel in CHANNELS:
            await finished(self._reader, READ_SECONDS, self._reader.add_listener(channel, heard))

    async def is_committing(self, name: str) -> bool:
        """Whether an earlier connection of this name still commits. Raises Away."""
        rows = await self.read(COMMITTING, name, self._writer.get_server_pid())
        return bool(rows[0][0])

    def end(self) -> None:
        """Closes both connections, without a word to what runs there."""
        self._reader.terminate()
        self._writer.terminate()
