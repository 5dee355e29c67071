"""Which question runs next: an order without input or output. Questions come, begin, end and leave."""
from collections.abc import Hashable
from dataclasses import dataclass

NAMELESS = "@"


@dataclass(eq=False)
class Ticket:
    """A question that waits, or runs: who asks, what, and whether it is the tower. The asker is a desk, or @ and an address."""
    asker: str
    what: Hashable
    is_tower: bool = False

    @property
    def turn(self) -> str:
        """With whom it takes turns: its desk's questions, or those of all who have no desk."""
        return NAMELESS if self.asker.startswith(NAMELESS) else self.asker


class Places:
    """So many places, at most one of them for a desk, and one for all who have no desk. The tower's questions begin first, the others
    in the order in which they came. A question that begins is begun for all who wait with the same one."""

    def __init__(self, places: int, most_of_one: int, most_nameless: int) -> None:
        self._places = places
        self._most_of_one = most_of_one
        self._most_nameless = most_nameless
        self.waiting: list[Ticket] = []
        self.running: dict[Ticket, list[Ticket]] = {}

    def come(self, ticket: Ticket) -> bool:
        """Whether this question may wait. One that its asker waits for already may."""
        every = {(one.asker, one.what) for one in self.waiting}
        every |= {(one.asker, one.what) for together in self.running.values() for one in together}
        if (ticket.asker, ticket.what) not in every:
            is_full = sum(asker == ticket.asker for asker, _ in every) >= self._most_of_one
            if is_full or ticket.turn == NAMELESS and len(every) >= self._most_nameless:
                return False
        self.waiting.append(ticket)
        return True

    def begin(self) -> list[Ticket]:
        """The questions that begin now."""
        begun: list[Ticket] = []
        for ticket in sorted(self.waiting, key=lambda one: not one.is_tower):
            turns = {one.turn for one in self.running}
            asked = {one.what for one in self.running}
            if len(self.running) < self._places and ticket.turn not in turns and ticket.what not in asked:
                together = [one for one in self.waiting if one.what == ticket.what]
                self.waiting = [one for one in self.waiting if one.what != ticket.what]
                self.running[ticket] = together
                begun.append(ticket)
        return begun

    def end(self, ticket: Ticket) -> list[Ticket]:
        """A question is answered: for these."""
        return self.running.pop(ticket)

    def leave(self, ticket: Ticket) -> bool:
        """Who asked doesn't wait any more. Whether the question hadn't begun."""
        if ticket in self.waiting:
            self.waiting.remove(ticket)
            return True
        return False
