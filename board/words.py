"""Words that come from outside, which of them are well-formed, and what is said of those that aren't."""
import json
import logging
import re
from datetime import datetime, timedelta, timezone

ROLES = ("AO", "GH", "AP", "ATC", "NM")
MOST_LINES = 256
MOST_BYTES = 100
# Printable ASCII without the double quote: such a line is one record of CSV, whatever it holds.
LINE = re.compile(r"(?=.*[^ ])[\x20\x21\x23-\x7e]+")
KEY = re.compile(r"[\x20-\x7e]{1,64}")
POSITION = re.compile("[0-9]{1,9}")


class Fault(Exception):
    """Why the server doesn't start, or ends, and with which exit status."""

    def __init__(self, why: object, status: int = 3) -> None:
        super().__init__(why)
        self.status = status


class Problem(Exception):
    """Why a request isn't done: HTTP's status, the line of the body (from 1), headers of the answer."""

    def __init__(self, status: int, why: str, line: int | None = None, **headers: str) -> None:
        super().__init__(why if line is None else f"line {line}: {why}")
        self.status = status
        self.line = line
        self.headers = {name.replace("_", "-"): value for name, value in headers.items()}


def refuse(is_so: object, status: int, why: str, line: int | None = None, **headers: str) -> None:
    """Raises Problem if something is so."""
    if is_so:
        raise Problem(status, why, line, **headers)


def tell(text: object, **fields: object) -> None:
    """A line on standard error. fields: what else it has, where lines are objects of JSON."""
    logging.getLogger("cdmboard").warning("%s", text, extra={"fields": fields})


def lines_of(body: bytes, most: int = MOST_LINES, most_bytes: int = MOST_BYTES) -> list[str]:
    """The lines of a body, each of which is one record whatever role is put before it. Raises Problem."""
    lines = [line.removesuffix("\r") for line in body.decode("latin-1").removesuffix("\n").split("\n")]
    refuse(len(lines) > most, 400, f"at most {most} records are taken together", most + 1)
    for number, line in enumerate(lines, 1):
        is_wrong = len(line) > most_bytes or not LINE.fullmatch(line)
        refuse(is_wrong, 400, f'no record of 1 to {most_bytes} bytes of printable ASCII without "', number)
    return lines


def now_text(unit: str = "milliseconds", ahead: timedelta = timedelta()) -> str:
    """The time that is so far ahead, in UTC, as the program writes it."""
    return (datetime.now(timezone.utc) + ahead).isoformat(timespec=unit).replace("+00:00", "Z")


class Kinds:
    """The program's table of kinds, by `cdmseq kinds --format json`."""

    def __init__(self, text: bytes) -> None:
        self.text = text
        rows = [json.loads(line) for line in text.splitlines()]
        self.roles: dict[str, list[str]] = {row["kind"]: row["roles"] for row in rows}
        self.of_flight = [row["kind"] for row in rows if row["of"] == "flight"]

    def flight_of(self, line: str) -> str | None:
        """The flight of a record, which is the first field behind its kind; None if its kind has none."""
        kind, _, fields = line.partition(",")
        return fields.partition(",")[0] if kind in self.of_flight else None
