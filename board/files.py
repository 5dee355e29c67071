"""The page's files as they were when the server started, under a folder that is named by their digest."""
import gzip
import hashlib
import re
from pathlib import Path
from typing import NamedTuple

from board.words import Problem

PAGE = Path(__file__).parent / "page"
INDEX = "index.html"
FILE_TYPES = {".html": "text/html", ".css": "text/css", ".js": "text/javascript", ".svg": "image/svg+xml", ".otf": "font/otf"}
# A face that was made for cockpits, where Debian's fonts-b612 is installed, and the file that names it; else the page has the system's.
FACE = Path("/usr/share/fonts/opentype/b612")
FACES = {"face.otf": "B612-Regular.otf", "face-bold.otf": "B612-Bold.otf"}
FACE_SHEET = "face.css"
# Hexadecimal digits of the digest that name the folder.
DIGITS = 16
# What is under such a name never changes, so a browser asks for it once.
FOR_EVER = "public, max-age=31536000, immutable"
# Lines of a module that are a comment alone, which no browser needs.
COMMENTS = re.compile(rb"^ *(?://.*|/\*\*(?:[^*]|\*(?!/))*\*/ *)\n", re.M)
# A reference of the first file to a file beside it.
LINKS = re.compile(rb'\b(href|src)="([A-Za-z0-9_-]+(?:\.[A-Za-z0-9_-]+)+)"')


class File(NamedTuple):
    """A file as it is served: its bytes, the same by gzip, its headers, and the tag of one that may be another the next time."""
    body: bytes
    packed: bytes
    headers: dict[str, str]
    tag: str = ""


class Files:
    """All files of a page, read once: what is changed on the disk afterwards is another version, for the next start. The first file,
    `/`, names the folder of the others, so a browser never mixes the files of two versions."""

    def __init__(self, folder: Path = PAGE, face: Path = FACE) -> None:
        bodies = {path.name: path.read_bytes() for path in sorted(folder.glob("*")) if path.suffix in FILE_TYPES}
        if all((face / name).is_file() for name in FACES.values()):
            bodies |= {own: (face / name).read_bytes() for own, name in FACES.items()}
        else:
            bodies.pop(FACE_SHEET, None)
        digest = hashlib.sha256(b"".join(b"%s %d\n%s" % (name.encode(), len(body), body) for name, body in bodies.items()))
        self.digest = digest.hexdigest()[:DIGITS]
        index = LINKS.sub(lambda found: self._named(found, bodies), bodies.pop(INDEX, b""))
        self._index = _file(INDEX, index, {})._replace(tag=f'"{hashlib.sha256(index).hexdigest()[:DIGITS]}"') if index else None
        self._files = {name: _file(name, body, {"Cache-Control": FOR_EVER}) for name, body in bodies.items()}

    def _named(self, found: re.Match[bytes], bodies: dict[str, bytes]) -> bytes:
        """A reference with the folder's name, if there is such a file."""
        name = found[2].decode()
        return b'%s="/page-%s/%s"' % (found[1], self.digest.encode(), found[2]) if name in bodies else found[0]

    def index(self) -> File:
        """The file of `/`. Raises Problem if the page has none."""
        if self._index is None:
            raise Problem(404, "there is no such file")
        return self._index

    def get(self, digest: str, name: str) -> File:
        """A file of the folder with this digest. Raises Problem if the folder is another version's, or has no such file."""
        if digest != self.digest:
            raise Problem(404, "these files are those of another version of the page; load / again")
        if name not in self._files:
            raise Problem(404, "there is no such file")
        return self._files[name]


def _file(name: str, body: bytes, headers: dict[str, str]) -> File:
    body = COMMENTS.sub(b"", body) if name.endswith(".js") else body
    kind = f"{FILE_TYPES[Path(name).suffix]}; charset=utf-8"
    own = {"Vary": "Accept-Encoding", "Content-Type": kind}
    return File(body, gzip.compress(body, mtime=0), own | headers)
