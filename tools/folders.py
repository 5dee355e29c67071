"""The folders of `cases/`. Each is an end-to-end test: a run of the program in it, and what must come out."""
import dataclasses
import os
import pathlib
import shutil
import subprocess
from collections.abc import Sequence
from typing import Any

from tools.crates import HOME

CASES = HOME / "cases"


def contents(file: pathlib.Path) -> bytes | None:
    """The contents of a file, or None if there is no such file."""
    return file.read_bytes() if file.is_file() else None


@dataclasses.dataclass
class Wanted:
    """What must come out of a run: one of the outputs, the errors, and the status as a line. None equals nothing."""

    outputs: list[bytes | None]
    errors: bytes | None
    status: bytes | None


def wanted(output: str | bytes = "", errors: str = "", status: int = 0) -> Wanted:
    """This output, these errors and this status."""
    return Wanted([os.fsencode(output)], os.fsencode(errors), b"%d\n" % status)


class Folder:
    """A folder in which the program is run. FILE.after, if there is one, is FILE after the run."""

    def __init__(self, path: pathlib.Path) -> None:
        self.path = path
        self.name = str(path.relative_to(HOME) if path.is_relative_to(HOME) else path)
        self.input = path / "stdin" if (path / "stdin").exists() else pathlib.Path(os.devnull)
        self.afters = {file.stem: file.read_bytes() for file in sorted(path.glob("*.after"))}

    def words(self) -> list[str]:
        """The arguments, one on each line of `args`."""
        with open(self.path / "args", encoding="utf-8", errors="surrogateescape", newline="\n") as args:
            return [line.removesuffix("\n") for line in args]

    def wanted(self) -> Wanted:
        """What the folder says must come out. If two outputs are correct, `stdout.or` is the second."""
        outputs = [contents(self.path / name) for name in ("stdout", "stdout.or")]
        return Wanted(outputs, contents(self.path / "stderr"), contents(self.path / "status"))

    def place(self, room: pathlib.Path) -> pathlib.Path:
        """Where it is run: in a copy of the folder, made anew in the room, if its files change."""
        if not self.afters:
            return self.path
        copy = room / "folder"
        shutil.rmtree(copy, ignore_errors=True)
        shutil.copytree(self.path, copy)
        return copy

    def changed(self, place: pathlib.Path) -> list[str]:
        """The files that aren't as they must be after a run in this place."""
        return [name for name, after in self.afters.items() if contents(place / name) != after]

    def run(self, program: str, words: Sequence[str], place: pathlib.Path, **how: Any) -> subprocess.CompletedProcess[bytes]:
        """Runs the program with these arguments in this place, on the folder's input."""
        with open(self.input, "rb") as given:
            return subprocess.run([program, *words], cwd=place, stdin=given, check=False, **how)


def folders() -> list[Folder]:
    """The folders of `cases/` that have arguments."""
    return [Folder(args.parent) for args in sorted(CASES.glob("*/args"))]
