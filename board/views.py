"""The view: what all screens ask alike after a record. It is made once for all of them, and comes with the events."""
import asyncio
import json
from typing import NamedTuple

from board.answers import Answer, Answers, Question
from board.events import Events, View
from board.words import Problem, tell

# Seconds that a burst of records may last and still have one view; seconds from the beginning of one view to that of the next.
BURST = 0.05
APART = 0.8
# A larger view, in bytes, isn't sent: each display would have to take it after each record.
MOST_VIEW = 256 << 10


class Member(NamedTuple):
    """A member of the view: the question that it answers, and whether that is a list or its first object."""
    question: Question
    is_list: bool = True


# The questions are those of POST /v1/compare with an empty body, and of GET /v1/next.json, /v1/warnings.json and /v1/load.json.
MEMBERS = {"totals": Member(Question("compare", ("scenarios.csv", "--format", "json"), b""), False),
           **{name: Member(Question(name, ("--format", "json"))) for name in ("next", "warnings", "load")}}


class Views:
    """Makes views, one at a time, while there are displays."""

    def __init__(self, answers: Answers, events: Events) -> None:
        self._answers = answers
        self._events = events
        self._told = ""

    async def run(self) -> None:
        """Makes a view of the latest position after each burst of records, and for a display that comes. Returns never."""
        clock = asyncio.get_running_loop().time
        while True:
            await self._events.stirred.wait()
            self._events.stirred.clear()
            if self._events.lacks_view():
                await asyncio.sleep(BURST)
            # Who lacked it may be gone meanwhile.
            if self._events.lacks_view():
                began = clock()
                await self._make()
                await asyncio.sleep(max(0.0, began + APART - clock()))

    async def _make(self) -> None:
        """A view, given to the events. One that can't be made is left out; why is told once."""
        why = ""
        try:
            moment, answers = await self._answers.together([member.question for member in MEMBERS.values()])
            size = sum(len(answer.output) for answer in answers)
            if size > MOST_VIEW:
                why = f"{size} bytes are too large"
            else:
                members, why = view_of(answers)
                if members:
                    self._events.show(View(*moment, members))
        except Problem as problem:
            why = str(problem)
        if why and why != self._told:
            tell(f"cdmboard: what all screens ask alike isn't whole: {why}")
        self._told = why


def view_of(answers: list[Answer]) -> tuple[bytes, str]:
    """The members that these answers make, as the inside of a JSON object; and why one is missing, if any is."""
    members = list[bytes]()
    why = ""
    for (name, member), answer in zip(MEMBERS.items(), answers):
        lines = answer.output.splitlines()
        try:
            if answer.status != 0:
                raise ValueError(answer.told or f"it ended with {answer.status}")
            for line in lines:
                json.loads(line)
            told = b"[%s]" % b",".join(lines) if member.is_list else lines[0]
            members.append(b'"%s":%s' % (name.encode(), told))
        except (ValueError, IndexError) as fault:
            why = why or f"{name}: {fault}"
    return b",".join(members), why
