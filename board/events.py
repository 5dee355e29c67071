"""Events: what each display gets, written together at most ten times a second, the same bytes to each."""
import asyncio
import contextlib
import zlib
from dataclasses import dataclass
from typing import NamedTuple

from aiohttp import web

from board.day import Day
from board.desks import Desk
from board.sending import LEVEL
from board.words import POSITION, refuse

PAUSE = 0.1
COMMENT = 15.0
MOST_ROWS = 100
MOST_UNSENT = 1 << 20
MOST_UNSENT_OF_ALL = 256 << 20
MOST_STREAMS = 20
MOST_DISPLAYS = 5000
# Of what a display missed; beyond that the plan is less for both.
MOST_FIRST = 64 << 10
# How a stream by gzip begins.
GZIP = b"\x1f\x8b\x08\0\0\0\0\0\0\x03"
# After so many displays others have their turn, such as the desk whose record this is.
IN_A_TURN = 25


class View(NamedTuple):
    """What all screens ask alike, at one moment: the day's `starts`, a position, and the members of a JSON object."""
    starts: int
    position: int
    members: bytes

    def text(self) -> bytes:
        """The event. It has no id, since who comes back gets the view of that moment anyway."""
        return b'event: view\ndata: {"position":%d,%s}\n\n' % (self.position, self.members)


@dataclass(eq=False)
class Stream:
    """One display, and by which request it came. `had`: the day's `starts` and the position up to which it has had events; `seen`: the
    same of the last view that it has had."""
    request: web.Request
    desk: Desk
    transport: asyncio.Transport
    ended: asyncio.Event
    is_packed: bool = False
    had: tuple[int, int] = (0, 0)
    seen: tuple[int, int] = (-1, 0)

    def write(self, chunk: bytes, most: int = MOST_UNSENT) -> None:
        """A chunk of the answer. Who doesn't read is cut off."""
        if self.transport.get_write_buffer_size() > most:
            self.transport.abort()
        elif not self.transport.is_closing():
            self.transport.write(chunk)


def chunk_of(text: bytes, is_packed: bool, first: bytes = b"") -> bytes:
    """A text as a chunk of HTTP. By gzip it is packed without a look at what came before it, so it is the same for all displays."""
    if is_packed:
        packer = zlib.compressobj(LEVEL, zlib.DEFLATED, -zlib.MAX_WBITS)
        text = first + packer.compress(text) + packer.flush(zlib.Z_FULL_FLUSH)
    return b"%x\r\n%s\r\n" % (len(text), text)


class Events:
    """All displays of a day. `stirred` is set when a display may lack the view of the present moment."""

    def __init__(self, log_id: str, day: Day) -> None:
        self._log_id = log_id.encode()
        self._day = day
        self.streams = set[Stream]()
        self._view = View(-1, 0, b"")
        # The last view as it is written to who comes, by whether it is packed.
        self._view_chunks = dict[bool, bytes]()
        self.stirred = asyncio.Event()

    async def run(self) -> None:
        """Writes what is new to all, or a comment if nothing is. Returns never."""
        while True:
            # Not wait_for, which forgets that it is cancelled if a reply comes at the same moment.
            with contextlib.suppress(TimeoutError):
                async with asyncio.timeout(COMMENT):
                    await self._day.changed.wait()
            self._day.changed.clear()
            await self._write()
            await asyncio.sleep(PAUSE)

    async def _write(self) -> None:
        texts: dict[tuple[object, ...], bytes] = {}
        chunks: dict[tuple[bytes, bool], bytes] = {}
        unsent = sum(stream.transport.get_write_buffer_size() for stream in self.streams)
        most = MOST_UNSENT if unsent < MOST_UNSENT_OF_ALL else MOST_UNSENT_OF_ALL // len(self.streams)
        # The desk's own reply goes out first.
        await asyncio.sleep(0)
        for number, stream in enumerate(list(self.streams), 1):
            now = self._moment()
            shown = self._view[:2] if self._is_due(stream) else stream.seen
            new = stream.desk.name, stream.had, now, stream.seen, shown
            if new not in texts:
                texts[new] = self._text(stream.desk.name, stream.had[1] if stream.had[0] == now[0] else -1)
                texts[new] += self._view.text() if shown != stream.seen else b""
            # Texts of two desks are mostly equal.
            which = texts[new], stream.is_packed
            if which not in chunks:
                chunks[which] = chunk_of(*which)
            stream.write(chunks[which], most)
            stream.had = now
            stream.seen = shown
            if number % IN_A_TURN == 0:
                await asyncio.sleep(0)
        self.stirred.set()

    def _moment(self) -> tuple[int, int]:
        return self._day.starts, self._day.position

    def _is_due(self, stream: Stream) -> bool:
        """Whether the last view is of this day and newer than what the display has seen. It is never newer than the display's events,
        which are written before it."""
        return self._view.starts == self._day.starts and self._view[:2] > stream.seen

    def lacks_view(self) -> bool:
        """Whether there is a display, and the last view is of an earlier moment."""
        return bool(self.streams) and self._view[:2] != self._moment()

    def show(self, view: View) -> None:
        """Takes the last view, which is written to all displays with the next events; one of a day that is gone is written to none."""
        self._view = view
        self._view_chunks.clear()
        self._day.changed.set()

    def _text(self, desk: str, since: int, is_first: bool = False) -> bytes:
        """What a desk gets of the records behind a position: `reset` if they aren't kept, or are too much. is_first: nothing went before,
        so it begins with `from`."""
        reset = self._moment_event("reset", self._day.position)
        records = self._day.kept_behind(since)
        if records is None:
            return reset
        text = bytearray(self._moment_event("from", since) if is_first else b":\nid: %s-%d\n\n" % (self._log_id, since))
        for record in records:
            if record.changes > MOST_ROWS:
                text += self._moment_event("reset", record.position)
            elif record.word is None or record.desk == desk:
                text += self._event(record.position, "refused" if record.word else "reply", self._day.text(record))
            if len(text) > (MOST_FIRST if is_first else MOST_UNSENT // 2):
                return reset
        return bytes(text)

    def _moment_event(self, name: str, position: int) -> bytes:
        """An event that says a position, and when its record was taken."""
        return self._event(position, name, b'{"position":%d,"at":"%s"}' % (position, self._day.at(position).encode()))

    def _event(self, position: int, name: str, data: bytes) -> bytes:
        return b"id: %s-%d\nevent: %s\ndata: %s\n\n" % (self._log_id, position, name.encode(), data)

    def check(self, desk: Desk) -> None:
        """Raises Problem if this desk has too many streams. Those that only read share theirs; half are kept for who has shown a token."""
        of_name = [stream for stream in self.streams if stream.desk.name == desk.name]
        if desk.role != "READ":
            is_full = len(of_name) >= MOST_STREAMS
        elif desk.name:
            is_full = sum(stream.desk.role == "READ" for stream in self.streams) >= MOST_DISPLAYS
        else:
            is_full = len(of_name) >= MOST_DISPLAYS // 2
        refuse(is_full, 429, "this desk has too many displays", Retry_After="5")

    def open(self, stream: Stream, said: str) -> None:
        """Begins with what came since an event, if one is said."""
        name, _, position = said.strip('"').rpartition("-")
        log_id, _, past = name.partition(".")
        is_known = log_id.encode() == self._log_id and POSITION.fullmatch(position) and int(position) > self._day.doubtful
        is_known = is_known and past in ("", self._day.past(int(position)))
        stream.had = self._moment()
        text = self._text(stream.desk.name, int(position) if is_known else -1 if said else stream.had[1], True)
        chunk = chunk_of(text, stream.is_packed, GZIP)
        if self._view[:2] == stream.had:
            stream.seen = stream.had
            chunk += self._view_chunk(stream.is_packed)
        stream.write(chunk)
        self.streams.add(stream)
        self.stirred.set()

    def _view_chunk(self, is_packed: bool) -> bytes:
        """The last view as a chunk, made once for all who come."""
        if is_packed not in self._view_chunks:
            self._view_chunks[is_packed] = chunk_of(self._view.text(), is_packed)
        return self._view_chunks[is_packed]

    def end(self) -> None:
        """Tells all displays that the server ends."""
        for stream in self.streams:
            stream.write(chunk_of(b"event: end\ndata: {}\n\n", stream.is_packed))
            stream.ended.set()
