"""The program with which a server was started: it serves until the server ends, and no other one in its place."""
import hashlib
import os

from board.words import Fault

# Bytes of one reply that it prints.
MOST_REPLY = 8 << 20
# Of each program that was started: its file as it was last seen, and the digest of its first start.
_SEEN = dict[str, tuple[tuple[int, ...], str]]()


def same(program: str) -> str:
    """A program's path, for the start of a process. Raises Fault if it isn't the program of its first start any more."""
    try:
        found = os.stat(program)
        # Whatever changes a file changes its time of change too, which nobody can set.
        marks = found.st_dev, found.st_ino, found.st_size, found.st_mtime_ns, found.st_ctime_ns
        seen, digest = _SEEN.get(program, ((), ""))
        if marks != seen:
            with open(program, "rb") as file:
                now = hashlib.file_digest(file, "sha256").hexdigest()
            if digest not in ("", now):
                raise Fault(f"{program} was replaced while it is served; restart the server, which checks the new one", 1)
            _SEEN[program] = marks, now
    except OSError as fault:
        raise Fault(f"cannot read {program or 'CDMSEQ, the program'} ({fault.strerror})", 1) from None
    return program
