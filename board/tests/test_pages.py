"""The page's files."""
import gzip
import json
import re
import shutil
import subprocess
import sys

import pytest
from conftest import ROOT


REFERENCE = re.compile(r'(?:href|src)="(/page-([0-9a-f]{16})/[^"]+)"')


def sent(path):
    """A file as a browser gets it: a module without the lines that are comments alone."""
    lines, kept, is_comment = path.read_bytes().splitlines(keepends=True), [], False
    if path.suffix != ".js":
        return b"".join(lines)
    for line in lines:
        is_comment = is_comment or line.lstrip(b" ").startswith((b"//", b"/**"))
        if not is_comment:
            kept.append(line)
        is_comment = is_comment and not line.lstrip(b" ").startswith(b"//") and not line.rstrip().endswith(b"*/")
    return b"".join(kept)


def test_the_page_s_files_are_those_of_one_version(board, tmp_path):
    """`/` names the folder of its files by their digest. They are kept for ever; another version's folder is 404; and a server serves what
    was there at its start, so that a page never mixes the files of two."""
    shutil.copytree(ROOT / "board", tmp_path / "board")
    shutil.copy2(ROOT / "cdmboard", tmp_path / "cdmboard")
    server = board(start=False)
    page = tmp_path / "board/page"

    def start():
        server.process = subprocess.Popen(
            [str(tmp_path / "cdmboard"), str(server.airport), str(server.log), "--listen", f"127.0.0.1:{server.port}"],
            env=server.environment, stdout=subprocess.PIPE, stderr=open(server.folder / "errors.txt", "ab"))
        server.port = int(server.process.stdout.readline().decode().rstrip("/\n").rpartition(":")[2])
        server.errors = open(server.folder / "errors.txt", "ab")
        first = server.get("/")
        assert first.status == 200 and first.headers["Cache-Control"] == "no-cache"
        found = REFERENCE.findall(first.body.decode())
        assert len({digest for _, digest in found}) == 1
        return first, [path for path, _ in found], found[0][1]
    first, paths, digest = start()
    assert {path.rpartition("/")[2] for path in paths} >= {"board.css", "main.js", "icon.svg"}
    for path in paths:
        answer, name = server.get(path), path.rpartition("/")[2]
        assert answer.body == sent(page / name) and answer.status == 200, path
        assert answer.headers["Cache-Control"] == "public, max-age=31536000, immutable"
        assert ("Content-Security-Policy" in answer.headers) == name.endswith(".svg") and "ETag" not in answer.headers
        assert gzip.decompress(server.get(path, Accept_Encoding="gzip").body) == answer.body
    assert first.headers["Content-Security-Policy"].startswith("default-src 'self'")
    assert server.get("/", If_None_Match=first.headers["ETag"]).status == 304
    # Modules import each other relatively, so within the folder.
    imported = {name for path in page.glob("*.js") for name in re.findall(r"""from '(.[^']*)'""", path.read_text())}
    assert imported and all(re.fullmatch(r"\./[a-z]+\.js", name) for name in imported), imported
    other = "0" * 16
    for path, why in ((f"/page-{other}/main.js", "another version"), (f"/page-{digest}/nix.js", "no such file"), (f"/page-{digest}/index.html", "no such file")):
        answer = server.get(path)
        assert answer.status == 404 and answer.headers["Cache-Control"] == "no-cache" and why in json.loads(answer.body)["detail"], path
    assert server.get("/main.js").status == 404
    # A file that is changed beneath the server is the next start's.
    (page / "times.js").write_text((page / "times.js").read_text() + "export {};\n")
    assert server.get(f"/page-{digest}/times.js").body + b"export {};\n" == sent(page / "times.js")
    assert server.end() == 0
    _, _, later = start()
    assert later != digest and server.get(f"/page-{digest}/main.js").status == 404
    assert server.get(f"/page-{later}/times.js").body == sent(page / "times.js")


def test_a_face_where_it_is_installed(tmp_path):
    """Its files are served only where Debian's package is, and the page names its sheet without asking for it."""
    sys.path.insert(0, str(ROOT))
    from board.files import FACES, Files
    from board.words import Problem
    bare = Files(face=tmp_path)
    assert b'href="face.css"' in bare.index().body
    with pytest.raises(Problem):
        bare.get(bare.digest, "face.css")
    for name in FACES.values():
        (tmp_path / name).write_bytes(name.encode())
    files = Files(face=tmp_path)
    assert f'rel="alternate" href="/page-{files.digest}/face.css"'.encode() in files.index().body
    sheet = files.get(files.digest, "face.css")
    for own in re.findall(rb"url\(([^)]+)\)", sheet.body):
        assert files.get(files.digest, own.decode()).body == FACES[own.decode()].encode()
    assert files.get(files.digest, "face.otf").headers["Content-Type"].startswith("font/otf")
