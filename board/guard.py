"""Connections: which are let in, how long headers may take, how much may come unasked."""
import asyncio
import resource
import socket
import time
from typing import Any

import aiohttp
from aiohttp import web

from board.connections import Limits, Places, group_of, is_loopback
from board.turns import Turns
from board.windows import Windows
from board.words import Fault, tell

KEPT_FREE = 200
TCP_USER_TIMEOUT = 18  # Linux' number of it, which mypy doesn't know.
MOST_UNREAD = 256 << 10
MOST_PIPELINED = 16
# So much is given to aiohttp at once: what it reads beyond a bound is no more than that.
PORTION = 16 << 10
HEADERS = 10.0
OF_A_PROXY = 75.0
UNTAKEN = 60.0
HOUR = 3600.0
# So many connections may wait to be let in. The event loop lets in a hundred each time it comes round, and the kernel drops what is beyond the queue:
# whoever is dropped tries again a second later.
QUEUE = 4096


class Door(socket.socket):
    """A socket that lets so many connections in, also before TLS is agreed on. Behind a proxy it lets in this machine alone, whose
    connections count in all, but not by their address."""

    def __init__(self, host: str, port: int, is_for_proxy: bool, limits: Limits, turns: Turns) -> None:
        family, *_, address = socket.getaddrinfo(host, port, type=socket.SOCK_STREAM)[0]
        super().__init__(fileno=socket.create_server(address, family=family).detach())
        self.places = Places(limits, resource.getrlimit(resource.RLIMIT_NOFILE)[0] - KEPT_FREE)
        self.turns = turns
        turns.rank = self.places.rank
        self._is_for_proxy = is_for_proxy
        self._guests = dict[int, Guest]()
        self._came_round = Windows(HOUR)

    def listen(self, backlog: int = 0, /) -> None:
        """Takes connections, of which QUEUE may wait, or as many as the kernel allows. `backlog` is how many the event loop lets in at once."""
        super().listen(QUEUE)

    def accept(self) -> tuple[socket.socket, Any]:
        connection, peer = super().accept()
        if self._is_for_proxy and not is_loopback(peer[0]):
            connection.close()
            if self._came_round.add(group_of(peer[0]), time.monotonic()).count == 1:
                tell(f"cdmboard: {peer[0]} came round the proxy; it is not let in")
            raise ConnectionAbortedError("not from the proxy")
        number = connection.fileno()
        entry = self.places.enter_from_proxy(number) if self._is_for_proxy else self.places.enter(number, peer[0])
        if not entry.is_in:
            connection.close()
            raise ConnectionAbortedError("too many connections")
        if entry.goes is not None:
            # It ends at once: those that come would be more than those that have turns.
            self.turns.first(entry.goes)
            self._guests[entry.goes].send_away()
        guest = self._guests[number] = Guest(connection.detach(), self)
        # Whoever takes nothing of what was sent to it for so long is gone, whatever else it says.
        guest.setsockopt(socket.IPPROTO_TCP, TCP_USER_TIMEOUT, int(1000 * UNTAKEN))
        return guest, peer

    def show(self, number: int) -> None:
        """A desk's token was shown on a connection."""
        self.places.show(number)
        self.turns.first(number)

    def left(self, number: int) -> None:
        """A connection was closed."""
        self._guests.pop(number, None)
        self.places.leave(number)


class Guest(socket.socket):
    """A connection that was let in, which counts until it is closed."""

    def __init__(self, number: int, door: Door) -> None:
        super().__init__(fileno=number)
        self._door = door

    def send_away(self) -> None:
        """Makes room: whoever uses it sees its end."""
        try:
            self.shutdown(socket.SHUT_RDWR)
        except OSError:
            pass  # It is gone already.

    def close(self) -> None:
        if self.fileno() >= 0:
            self._door.left(self.fileno())
        super().close()


class Guard(web.RequestHandler):
    """A connection that is cut off if it takes more than its share. Between two requests aiohttp keeps the time itself."""

    def __init__(self, server: web.Server, door: Door, is_for_proxy: bool) -> None:
        # A proxy keeps the time of headers itself, and connections for requests that come.
        self._patience = OF_A_PROXY if is_for_proxy else HEADERS
        super().__init__(server, loop=asyncio.get_running_loop(), lingering_time=5.0, auto_decompress=False, keepalive_timeout=self._patience)
        self.access_logger = None
        self.lost = asyncio.Event()
        self._door = door
        # Bytes since the last request was begun; how many requests were taken by the server's own code, or found wrong before.
        self._unread = 0
        self._taken = 0

    def connection_made(self, transport: asyncio.BaseTransport) -> None:
        assert isinstance(transport, asyncio.Transport)
        self._number: int = transport.get_extra_info("socket").fileno()
        self._late = asyncio.get_running_loop().call_later(self._patience, transport.abort)
        super().connection_made(transport)

    async def start(self) -> None:
        """A request whose very address can't be read ends aiohttp's task; so it ends the connection too."""
        try:
            await super().start()
        except Exception:
            self._cut()

    def take(self) -> None:
        """A request is begun with; those that came behind it wait."""
        self._taken += 1

    async def turn(self) -> None:
        """Waits for the turn of a request that no desk makes. Raises ConnectionError if who asks is gone by then."""
        await self._door.turns.turn()
        if self.transport is None:
            raise ConnectionResetError("gone before its turn")

    def show(self) -> None:
        """A desk's token was shown on this connection."""
        if self.transport is not None:
            self._door.show(self._number)

    def _cut(self) -> None:
        if self.transport is not None:
            self.transport.abort()

    def connection_lost(self, exc: BaseException | None) -> None:
        super().connection_lost(exc)
        self._late.cancel()
        self.lost.set()

    def data_received(self, data: bytes) -> None:
        for start in range(0, len(data), PORTION):
            # aiohttp's own count of the requests that were begun.
            count = self._request_count
            portion = data[start:start + PORTION]
            super().data_received(portion)
            self._unread += len(portion)
            if self._request_count > count:
                self._late.cancel()
                self._unread = 0
            if self._unread > MOST_UNREAD or self._request_count - self._taken > MOST_PIPELINED:
                self._cut()
                break

    def handle_error(self, request: web.BaseRequest, status: int = 500, exc: BaseException | None = None,
                     message: str | None = None) -> web.StreamResponse:
        """What is wrong before a request reaches the server's own code is the request's fault."""
        self.take()
        answer = super().handle_error(request, 400, None, "the request is malformed")
        answer.headers["Server"] = "cdmboard"
        return answer


def check_library(server: web.Server, door: Door) -> None:
    """Raises Fault if this aiohttp doesn't count requests where a guard reads the count: nothing would bound a connection then."""
    tried = Guard(server, door, is_for_proxy=False)
    web.RequestHandler.data_received(tried, b"GET / HTTP/1.1\r\nHost: localhost\r\n\r\n" * 2)
    if getattr(tried, "_request_count", 0) != 2:
        raise Fault(f"aiohttp {aiohttp.__version__} doesn't count the requests of a connection; docs/RUN.md names versions that do")
