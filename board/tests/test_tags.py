"""Tags: who has an answer already gets 304, but never for what isn't there, or isn't its to see."""
import gzip

import pytest

DESKS = {"ap": 'role = "AP"', "screen": 'role = "READ"'}


@pytest.fixture
def server(board):
    server = board(DESKS)
    server.post([f"FLT,AB{number},5" for number in range(90)], "ap")
    return server


def test_a_tag_says_nothing_of_what_is_not_there(server):
    """Neither of an unknown path, method, flight or record, nor of what has no moment, nor without a token."""
    tag = server.get("/v1/plan", "ap").headers["ETag"]
    assert server.get("/v1/plan", "ap", If_None_Match=tag).status == 304
    asked = {"/nix": 404, "/v1/nix": 404, "/v1/what-if": 405, "/v1/session": 405, "/v1/why/NIX": 404, "/v1/records/1/sentence": 404, "/metrics": 200,
             "/health": 200, "/ready": 200, "/": 200, "/v1/who": 200, "/v1/kinds": 200, "/v1/next?minutes=x": 400}
    assert {path: server.get(path, "ap", If_None_Match=tag).status for path in asked} == asked
    for path in ("/v1/plan", "/v1/records", "/v1/journal.csv", "/metrics"):
        assert server.get(path, If_None_Match=tag).status == 401, path
        assert server.get(path, "nobody", If_None_Match=tag).status == 401, path
    assert server.request("HEAD", "/v1/plan", None, "ap", If_None_Match=tag).status == 304
    assert server.request("POST", "/v1/what-if", "", "ap", If_None_Match=tag).status == 200


@pytest.mark.parametrize("path", ["/v1/plan.json", "/v1/records", "/v1/journal.csv", "/"])
def test_an_answer_by_gzip_has_a_tag_of_its_own(server, path):
    """Both say the same position, and who has either has the answer."""
    plain, packed = server.get(path, "ap"), server.get(path, "ap", Accept_Encoding="gzip")
    assert packed.headers["Content-Encoding"] == "gzip" and gzip.decompress(packed.body) == plain.body
    tags = plain.headers["ETag"], packed.headers["ETag"]
    assert tags[0] != tags[1] and tags[1] == "W/" + tags[0]
    for tag in tags:
        for accepted in ("gzip", "identity"):
            again = server.get(path, "ap", If_None_Match=tag, Accept_Encoding=accepted)
            assert (again.status, again.body) == (304, b"")
            assert again.headers["ETag"] == (tags[1] if accepted == "gzip" else tags[0])
