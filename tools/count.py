"""What scripts of tests count and tell."""
import dataclasses
import os
import sys


def tell(line: str | bytes) -> None:
    """Prints a line at once, whatever bytes it has."""
    sys.stdout.flush()
    sys.stdout.buffer.write(os.fsencode(line) + b"\n")
    sys.stdout.buffer.flush()


@dataclasses.dataclass
class Count:
    """How many checks passed and failed."""

    passed: int = 0
    failed: int = 0

    def add(self, holds: bool, told: str) -> None:
        """Counts a check, and tells what is wrong if it fails."""
        self.passed += holds
        self.failed += not holds
        if not holds:
            tell(told)

    def __add__(self, other: "Count") -> "Count":
        return Count(self.passed + other.passed, self.failed + other.failed)

    def status(self) -> int:
        """The exit status: 0 if there was a check and none failed."""
        return 0 if self.passed and not self.failed else 1

    def __str__(self) -> str:
        return f"{self.passed} passed, {self.failed} failed"
