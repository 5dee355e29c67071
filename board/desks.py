"""Desks: who may speak, as what, and how much."""
import contextlib
import hashlib
import hmac
import os
import re
import time
import tomllib
from collections.abc import Iterable, Iterator
from dataclasses import dataclass, field, fields
from datetime import timedelta
from typing import Any

from board.connections import Limits
from board.words import ROLES, Fault, Kinds, now_text, refuse

DESK_NAME = re.compile(r"[A-Za-z0-9-]{1,32}")
TOKEN = re.compile(r"sha256:[0-9a-f]{64}")
TIME = re.compile(r"[0-9]{4}-[0-9]{2}-[0-9]{2}T[0-9]{2}:[0-9]{2}Z")
AHEAD = timedelta(minutes=5)
ANY = timedelta(days=36_500)
MOST_RECORDS_WAITING = 256
MOST_A_SECOND = 50
PACE_SECONDS = 10
# What a database has room for in a number.
MOST_QUOTA = 2**31 - 1


@dataclass(frozen=True)
class Desk:
    """A desk: its name, its one role, what it may send; `clock`: how far ahead a CLOCK may be, if any is."""
    name: str
    role: str
    tokens: tuple[bytes, ...] = field(default=(), repr=False)
    records: int = 2000
    flights: tuple[str, ...] | None = None
    clock: timedelta | None = None

    def check(self, lines: Iterable[str], kinds: Kinds) -> None:
        """Raises Problem if one of the lines isn't this desk's to send."""
        refuse(self.role not in ROLES, 403, "who only reads sends no records")
        for number, line in enumerate(lines, 1):
            flight = kinds.flight_of(line)
            (kind, _, at) = line.partition(",")
            is_other = self.flights is not None and not (flight or "").startswith(self.flights)
            refuse(is_other, 403, f"{self.name} sends records of its own flights alone", number)
            if kind == "CLOCK":
                refuse(self.clock is None, 403, f"{self.name} sends no CLOCK", number)
                is_ahead = self.clock and TIME.fullmatch(at) and at > now_text("minutes", self.clock)
                refuse(is_ahead, 403, "a CLOCK is at most 5 minutes ahead", number)


READER = Desk("", "READ")


@dataclass
class Pace:
    """What a desk sends at once: so many records that wait, and so many a second, over some seconds."""
    waiting: int = 0
    room: float = MOST_A_SECOND * PACE_SECONDS
    then: float = 0

    @contextlib.contextmanager
    def of(self, count: int) -> Iterator[None]:
        """While these records wait. Raises Problem if they are too many."""
        now = time.monotonic()
        room = min(MOST_A_SECOND * PACE_SECONDS, self.room + (now - self.then) * MOST_A_SECOND)
        is_much = self.waiting + count > MOST_RECORDS_WAITING or room < count
        seconds = 1 + int(max(0, count - room) / MOST_A_SECOND)
        refuse(is_much, 429, "too many records at once", Retry_After=str(seconds))
        self.room = room - count
        self.then = now
        self.waiting = self.waiting + count
        try:
            yield
        finally:
            self.waiting -= count


class Desks:
    """All desks of a board, and its limits of connections. `is_open`: a request names its role itself."""

    def __init__(self, desks: Iterable[Desk], anyone_reads: bool, is_open: bool = False, limits: Limits = Limits()) -> None:
        self.by_name = {desk.name: desk for desk in desks}
        self.anyone_reads = anyone_reads
        self.is_open = is_open
        self.limits = limits

    def by_token(self, token: str) -> Desk | None:
        """The desk of a token. All are compared, in constant time."""
        asked = digest(token)
        desks = self.by_name.values()
        found = [desk for desk in desks for kept in desk.tokens if hmac.compare_digest(asked, kept)]
        return found[0] if found else None

    def changes_to(self, new: "Desks") -> list[str]:
        """What other desks change: +NAME, -NAME, NAME: what changed; `read` and limits too."""
        told = [f"+{name}" for name in new.by_name if name not in self.by_name] + [f"-{name}" for name in self.by_name if name not in new.by_name]
        for name, desk in self.by_name.items():
            other = new.by_name.get(name, desk)
            changed = [part.name for part in fields(Desk) if getattr(desk, part.name) != getattr(other, part.name)]
            told += [f"{name}: {' '.join(changed)}"] if changed else []
        told += [f"read: {'anyone' if new.anyone_reads else 'desks'}"] if new.anyone_reads != self.anyone_reads else []
        for part in fields(Limits):
            now = getattr(new.limits, part.name)
            told += [f"limits: {part.name} {now}"] if now != getattr(self.limits, part.name) else []
        return told


def digest(token: str) -> bytes:
    """What is kept of a token."""
    return hashlib.sha256(token.encode("utf-8", "surrogateescape")).digest()


def read_desks(path: str | None) -> Desks:
    """The desks of a file; without one each role is a desk, for who speaks from this machine. Raises Fault."""
    if path is None:
        return Desks([Desk(role, role, (), 20_000, None, ANY if role == "ATC" else None) for role in ROLES], True, True)
    try:
        with open(path, "rb") as file:
            if os.fstat(file.fileno()).st_mode & 0o077:
                raise ValueError(f"others can read it; chmod 600 {path}")
            told = tomllib.load(file)
        read = told.pop("read", "desks")
        tables = told.pop("desk", {})
        limits = _limits(told.pop("limits", {}))
        if told or read not in ("desks", "anyone") or not isinstance(tables, dict):
            raise ValueError('it has read = "desks" or "anyone", [limits] and [desk.NAME] alone')
        desks = [_desk(name, table) for name, table in tables.items()]
        tokens = [token for desk in desks for token in desk.tokens]
        if len(set(tokens)) < len(tokens):
            raise ValueError("two desks have one token")
    except (OSError, ValueError) as fault:
        raise Fault(f"{path}: {fault}") from None
    return Desks(desks, read == "anyone", False, limits)


def _limits(told: Any) -> Limits:
    """The table of limits. Raises ValueError."""
    names = {part.name for part in fields(Limits)}
    table = told if isinstance(told, dict) else {"": told}
    wrong = [name for name, most in table.items() if name not in names or type(most) is not int or most < 1]
    if wrong:
        raise ValueError(f"[limits]: {', '.join(wrong)}: unknown, or no number from 1 on; it has {', '.join(sorted(names))}")
    return Limits(**table)


def _desk(name: str, told: Any) -> Desk:
    table: dict[str, Any] = {"role": "", "token": [], "flights": None, "clock": False} | (told if isinstance(told, dict) else {})
    role = table["role"]
    tokens = table["token"]
    flights = table["flights"]
    clock = table["clock"]
    records = table.setdefault("records", 20_000 if role in ("ATC", "NM") else 2000)
    tokens = tokens if isinstance(tokens, list) else [tokens]
    right = {"role": role in (*ROLES, "READ"), "records": type(records) is int and 0 <= records <= MOST_QUOTA, "clock": isinstance(clock, bool),
             "token": tokens and _are(tokens, TOKEN), "flights": flights is None or _are(flights, re.compile(".+"))}
    wrong = [word for word in table if not right.get(word)]
    if not DESK_NAME.fullmatch(name) or name in ("clock", "import", "day-at") or wrong:
        raise ValueError(f"desk {name!a}: {', '.join(wrong) or 'its name'}: missing, unknown or malformed")
    digests = tuple(bytes.fromhex(token.removeprefix("sha256:")) for token in tokens)
    return Desk(name, role, digests, records, None if flights is None else tuple(flights), AHEAD if clock else None)


def _are(said: object, form: re.Pattern[str]) -> bool:
    return isinstance(said, list) and all(isinstance(one, str) and form.fullmatch(one) for one in said)
