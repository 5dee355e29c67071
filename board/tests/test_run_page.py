"""docs/RUN.md: its backup is restored as it says, and the day is that of the backup."""
import os
import re
import subprocess

from conftest import PROGRAM, ROOT, moment, objects

PART = (ROOT / "docs/RUN.md").read_text().partition("## Backup and restore")[2].partition("\n## ")[0]


def test_the_restore_of_the_page(board):
    """While it is served a backup is made; then records come, the server is killed, and its log is damaged."""
    backup, restore = re.findall(r"```sh\n(.*?)```", PART, re.S)
    server = board()
    (server.folder / "bin").mkdir()
    (server.folder / "bin/cdmboard").symlink_to(ROOT / "cdmboard")
    path = f"{server.folder}/bin:{os.environ['PATH']}"

    def paste(lines):
        ended = subprocess.run(["bash", "-e"], input=lines, cwd=server.folder, env=dict(os.environ, CDMSEQ=PROGRAM, PATH=path), capture_output=True, text=True)
        assert (ended.returncode, ended.stderr) == (0, ""), ended
        return ended.stdout

    def plan():
        return objects(server.get("/v1/plan.json").body)[0]
    server.post(["FLT,AB1,5", "FOO"], Cdm_Role="AP")
    server.post([f"TOBT,AB1,{moment(400)}"], Cdm_Role="AO")
    as_it_was = plan()
    assert paste(backup).startswith("3 records, 2 accepted")
    server.post(["FLT,AB2,5"], Cdm_Role="AP")
    server.kill()
    (server.folder / "day.db").write_bytes(b"no log")
    paste(restore)
    assert {file.name for file in (server.folder / "lost").iterdir()} >= {"day.db"}
    server.start()
    assert plan() == as_it_was and server.post(["FLT,AB3,5"], Cdm_Role="AP")[0]["position"] == 4
