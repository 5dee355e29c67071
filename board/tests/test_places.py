"""The order of questions, run under schedules drawn by a seed, and held to its laws."""
import random
import sys

import pytest
from conftest import ROOT, count

sys.path.insert(0, str(ROOT))
from board.places import NAMELESS, Places, Ticket  # noqa: E402

SCHEDULES = count("BOARD_PLACES", 2000)
STEPS = 60
DESKS = ["tower", "gh", "ap", "ao", "@1", "@2", "@3"]


class Day:
    """One schedule: what came, begins and ends, as an observer sees it."""

    def __init__(self, seed):
        self.chance = random.Random(seed)
        self.places, self.of_one, self.nameless = self.chance.choice([1, 2, 3]), self.chance.choice([1, 2, 4]), self.chance.choice([3, 8])
        self.queue = Places(self.places, self.of_one, self.nameless)
        self.waiting, self.running, self.answered, self.gone = [], [], [], []

    def come(self):
        asker = self.chance.choice(DESKS)
        ticket = Ticket(asker, self.chance.randrange(6), asker == "tower")
        of_asker = {one.what for one in self.open() if one.asker == asker}
        may = self.queue.come(ticket)
        if ticket.what not in of_asker:
            assert not (may and len(of_asker) >= self.of_one)
            assert may or len(of_asker) >= self.of_one or ticket.turn == NAMELESS
        else:
            assert may
        if may:
            self.waiting.append(ticket)

    def open(self):
        return [*self.waiting, *(one for _, together in self.running for one in together)]

    def begin(self):
        for ticket in self.queue.begin():
            assert ticket in self.waiting
            ahead = [one for one in self.waiting if (not one.is_tower, self.waiting.index(one)) < (not ticket.is_tower, self.waiting.index(ticket))]
            turns, asked = {one.turn for one, _ in self.running}, {one.what for one, _ in self.running}
            # Nobody is passed over who could have begun.
            assert not [one for one in ahead if one.turn not in turns and one.what not in asked]
            together = [one for one in self.waiting if one.what == ticket.what]
            self.waiting = [one for one in self.waiting if one.what != ticket.what]
            self.running.append((ticket, together))
        turns = [one.turn for one, _ in self.running]
        assert len(self.running) <= self.places and len(set(turns)) == len(turns)
        assert len({one.what for one, _ in self.running}) == len(self.running)
        # No place is free that somebody could take.
        could = [one for one in self.waiting if one.turn not in turns and one.what not in {other.what for other, _ in self.running}]
        assert len(self.running) == self.places or not could

    def end(self):
        if self.running:
            ticket, together = self.running.pop(self.chance.randrange(len(self.running)))
            assert self.queue.end(ticket) == together and ticket in together
            self.answered += together

    def leave(self):
        asked = self.open()
        if asked:
            ticket = self.chance.choice(asked)
            assert self.queue.leave(ticket) == (ticket in self.waiting)
            if ticket in self.waiting:
                self.waiting.remove(ticket)
                self.gone.append(ticket)

    def run(self):
        for _ in range(STEPS):
            self.chance.choice([self.come, self.come, self.come, self.end, self.leave])()
            if self.chance.random() < 0.8:
                self.begin()
        # Nothing more comes: all that waits is answered, after so many ends.
        for _ in range(len(self.waiting) + len(self.running)):
            self.begin()
            self.end()
        assert not self.waiting and not self.running
        assert self.queue.waiting == [] and self.queue.running == {}


def test_each_question_has_its_turn():
    """At most one of a desk, one of all who have no desk, as many as there are places; the tower first; none is passed over or forgotten."""
    for seed in range(SCHEDULES):
        try:
            Day(seed).run()
        except AssertionError as why:
            pytest.fail(f"seed {seed}: {why}")


def test_the_tower_is_first():
    queue = Places(1, 16, 64)
    desks = [Ticket("gh", number) for number in range(3)]
    tower = Ticket("tower", "x", True)
    assert all(queue.come(one) for one in (*desks, tower))
    assert queue.begin() == [tower] and queue.begin() == []
    assert queue.end(tower) == [tower] and queue.begin() == [desks[0]]
