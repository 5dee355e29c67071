"""Answers as they are sent: whether who asks has them, by gzip, and piece by piece; problems as answers."""
import asyncio
import gzip
import json
from collections import OrderedDict
from http import HTTPStatus

from aiohttp import payload, web
from aiohttp.abc import AbstractStreamWriter

from board.words import Problem

WORTH_WHILE = 1024
MOST_SHARED = 1 << 20
PIECE = 64 << 10
MOST_PACKED = 16
# How hard answers and events are packed.
LEVEL = 4


class Pieces(payload.Payload):
    """A body that is written piece by piece, as far as it is read: a connection never has a copy of all of it."""

    def __init__(self, body: bytes) -> None:
        super().__init__(body, content_type="application/octet-stream")
        self._body = body

    @property
    def size(self) -> int:
        return len(self._body)

    def decode(self, encoding: str = "utf-8", errors: str = "strict") -> str:
        """As a text, which a later aiohttp asks a body for."""
        return self._body.decode(encoding, errors)

    async def write(self, writer: AbstractStreamWriter) -> None:
        """Writes each piece once the one before it has left."""
        for start in range(0, len(self._body), PIECE):
            await writer.write(self._body[start:start + PIECE])


def has(request: web.Request, tag: str) -> bool:
    """Whether who asks has what bears this tag, packed or not."""
    return request.method in ("GET", "HEAD") and tag in [f'"{had.value}"' for had in request.if_none_match or ()]


def tagged(tag: str, is_packed: bool) -> str:
    """The tag of an answer. One by gzip has a weak tag, since its bytes are others."""
    return f"W/{tag}" if is_packed else tag


def wants_packed(request: web.Request, size: int) -> bool:
    """Whether an answer of this size goes by gzip."""
    return "gzip" in request.headers.get("Accept-Encoding", "") and size > WORTH_WHILE


class Packed:
    """Bodies by gzip. Of the last small ones each is made once, as many may ask for it."""

    def __init__(self) -> None:
        self._kept = OrderedDict[bytes, bytes]()
        self._making = dict[bytes, asyncio.Task[bytes]]()

    async def of(self, body: bytes) -> bytes:
        """A body by gzip. Where it isn't there already, it is made once for all who wait for it."""
        if body in self._kept:
            return self._kept[body]
        if body not in self._making:
            self._making[body] = asyncio.create_task(self._make(body))
            self._making[body].add_done_callback(lambda _: self._making.pop(body))
        # Who goes away leaves it to the others.
        return await asyncio.shield(self._making[body])

    async def _make(self, body: bytes) -> bytes:
        """Packs a body beside the server's own thread."""
        packed = await asyncio.to_thread(gzip.compress, body, LEVEL, mtime=0)
        if len(body) <= MOST_SHARED:
            self._kept[body] = packed
        while len(self._kept) > MOST_PACKED:
            self._kept.popitem(last=False)
        return packed


PACKED = Packed()


async def pack(request: web.Request, body: bytes, headers: dict[str, str], is_certain: bool = True) -> web.Response:
    """An answer with a tag, by gzip if that is wanted and worth while; 304 for who has it. is_certain: its tag is of nothing else."""
    tag = headers["ETag"]
    is_packed = wants_packed(request, len(body))
    headers = headers | {"ETag": tagged(tag, is_packed)}
    if is_certain and has(request, tag):
        return web.Response(status=304, headers={name: headers[name] for name in headers if name != "Content-Type"})
    if is_packed:
        headers["Content-Encoding"] = "gzip"
        body = await PACKED.of(body)
    # Who counts what is unread asks for this length; a later aiohttp tells that of a body in pieces only once it is sent.
    headers["Content-Length"] = str(len(body))
    return web.Response(body=Pieces(body) if len(body) > PIECE else body, headers=headers)


def problem_as_answer(problem: Problem) -> web.Response:
    """What is wrong with a request, as an answer (RFC 9457)."""
    told = {"type": "about:blank", "title": HTTPStatus(problem.status).phrase, "status": problem.status, "detail": str(problem)}
    told |= {"line": problem.line} if problem.line else {}
    return web.Response(status=problem.status, body=json.dumps(told).encode(), headers=problem.headers,
                        content_type="application/problem+json")
