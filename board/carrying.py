"""What a new day begins with: the airport file of the next day, and what the program carries over to it."""
import os
import tempfile
from pathlib import Path

from board.answers import run
from board.chain import BOUND, after
from board.day import Day
from board.log import DATED, dated
from board.program import same
from board.words import refuse

CARRY_LIMIT = 6.0
# Release 1.0.0 has no such command.
NO_CARRY = "this server's program can't carry a day over; install a newer one and restart the server"


def next_date(day: Day) -> str:
    """The date of the day after a day."""
    return after(day.date)


def next_airport(day: Day) -> bytes:
    """The same airport file with the next day. Raises Problem."""
    refuse(not DATED.search(day.change.airport), 409, "the airport file's first record isn't DAY; send the airport file of the next day")
    return dated(day.change.airport, next_date(day))


async def carried_over(folder: str, program: str, day: Day, airport: bytes) -> bytes:
    """The feed with which the next day begins. Raises Problem, Fault, OSError."""
    file = day.change.file
    feed = day.feed()
    with tempfile.TemporaryDirectory(dir=folder) as inside:
        Path(inside, "feed.csv").write_text(feed, "ascii")
        Path(inside, "next.csv").write_bytes(airport)
        ran = await run(inside, CARRY_LIMIT, *BOUND, same(program), "carry", os.path.join("..", file), "feed.csv", "next.csv")
    refuse(ran.status == 2, 503, NO_CARRY)
    refuse(ran.status == 3, 422, ran.told)
    refuse(ran.status != 0, 503, f"the day can't be carried over: {ran.told or f'the program ended with {ran.status}'}", Retry_After="5")
    return ran.output
