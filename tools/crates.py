"""The crates of the repository, and what `rt` made of them."""
import os
import pathlib
import shutil

HOME = pathlib.Path(__file__).resolve().parent.parent


def lines_of(text: str) -> dict[str, str]:
    """The lines of a crates.txt by crate, lowest first."""
    lines = [line for line in text.splitlines() if line.strip() and not line.startswith("#")]
    return {line.partition(":")[0].split()[0]: line for line in lines}


def crates() -> dict[str, list[str]]:
    """The crates of the repository, lowest first, each with the crates of the repository that it uses."""
    lines = lines_of((HOME / "crates.txt").read_text())
    return {crate: [name for name in line.partition(":")[2].split() if name in lines] for crate, line in lines.items()}


def length(crate: str) -> int:
    """The bytes of code and of proofs of a crate: the time of its proof is roughly proportional to them."""
    return sum(file.stat().st_size for part in ("src", "proofs") for file in (HOME / "crates" / crate / part).rglob("*.*t"))


def below(crate: str, named: dict[str, list[str]]) -> set[str]:
    """The crates below a crate."""
    return {name for one in named[crate] for name in (one, *below(one, named))}


def link(file: str, other: str) -> None:
    """Links the file under another name, or copies it if that name is on another disk."""
    try:
        os.link(file, other)
    except OSError:
        shutil.copy2(file, other)


def take(crate: str, parts: list[str], made: pathlib.Path, wanted: pathlib.Path) -> None:
    """Links parts of what `rt` made of a crate in one copy of the repository into another copy.

    `rlib` is the proved library, which crates above it need. `incremental` spares `rt` the proof of what is the same.
    """
    for part in parts:
        source, target = (folder / "crates" / crate / "out" / part for folder in (made, wanted))
        if source != target and source.is_dir():
            shutil.rmtree(target, ignore_errors=True)
            shutil.copytree(source, target, copy_function=link)
