"""docs/openapi.json: each operation is asked of a real server, each answer is as the file has it, and no path is missing or invented."""
import asyncio
import copy
import functools
import http.client
import json
import re
import sys
from unittest import mock

import pytest
from aiohttp.test_utils import make_mocked_request
from conftest import PROGRAM, ROOT, objects

jsonschema = pytest.importorskip("jsonschema", reason="test_openapi: python3-jsonschema is missing")
sys.path.insert(0, str(ROOT))
from board.metrics import CODES  # noqa: E402
from board.web import Board  # noqa: E402
from board.words import ROLES  # noqa: E402

DOCUMENT = json.loads((ROOT / "docs" / "openapi.json").read_text())
METHODS = ("get", "post", "delete", "put", "patch")
DESKS = {"ap": 'role = "AP"', "tower": 'role = "ATC"\nclock = true', "ops": 'role = "AO"\nflights = ["AB"]', "wall": 'role = "READ"'}
SHUT = "SCENARIO,SHUT\nCLOSE,27L,2025-03-10T06:00Z,2025-03-10T07:00Z\nSCENARIO,NIX\nCNL,ZZ9\n"
# What of an answer's headers the file has.
SAID = re.compile("Cdm-.*|ETag|Vary|Retry-After|WWW-Authenticate|Set-Cookie|Allow", re.I)
PLAIN = ("/v1/plan", "/v1/plan.csv", "/v1/plan.json", "/v1/picture.svg", "/v1/load", "/v1/load.json", "/v1/load/{runway}",
         "/v1/load/{runway}.json", "/v1/next", "/v1/next.json", "/v1/warnings", "/v1/warnings.json", "/v1/causes", "/v1/causes.json",
         "/v1/why/{flight}", "/v1/why/{flight}.json")
# Over the day alone, as each answer is of many what-ifs.
OF_DAY = ("/v1/options/{flight}", "/v1/options/{flight}.json")
OTHERS = (*OF_DAY, "/v1/records", "/v1/records/{position}/sentence", "/v1/kinds", "/v1/airport.csv", "/v1/journal.csv", "/v1/who", "/health", "/ready",
          "/metrics", "/", "/page-{digest}/{file}", "/v1/day", "/v1/day.json")
NAMES = {"runway": "27L", "flight": "AB1", "name": "SHUT", "position": "4", "file": "main.js"}


def resolved(found):
    """What a reference leads to."""
    while "$ref" in found:
        assert found["$ref"].startswith("#/components/"), found
        found = functools.reduce(lambda inside, name: inside[name], found["$ref"][2:].split("/"), DOCUMENT)
    return found


def every(found):
    """Each object within an object or a list."""
    if isinstance(found, dict):
        yield found
    for inside in found.values() if isinstance(found, dict) else found if isinstance(found, list) else ():
        yield from every(inside)


def strict():
    """The file, in which no object has a member that isn't named."""
    made = copy.deepcopy(DOCUMENT)
    for one in every(made["components"]["schemas"]):
        if isinstance(one.get("properties"), dict) and "type" in one:
            one["additionalProperties"] = False
    return made


COMPONENTS = strict()["components"]


def hold(value, schema):
    """Holds a value to a schema of the file, which refers to the file's components."""
    jsonschema.Draft202012Validator({**schema, "components": COMPONENTS}).validate(value)


def events_of(text):
    """The events of a stream. A comment is none."""
    found = []
    for block in text.removesuffix("\n\n").split("\n\n"):
        fields = dict(line.split(": ", 1) for line in block.split("\n") if line and not line.startswith(":"))
        found += [fields | ({"data": json.loads(fields["data"])} if "data" in fields else {})]
    return found


def value_of(kind, body):
    """What a body is to its schema."""
    reads = {"application/json": json.loads, "application/problem+json": json.loads, "application/x-ndjson": objects,
             "text/event-stream": lambda text: events_of(text.decode())}
    return reads.get(kind, bytes.decode)(body)


def check(method, path, answer):
    """Holds an answer to what the file says of this operation."""
    said = resolved(DOCUMENT["paths"][path][method.lower()]["responses"][str(answer.status)])
    kind = (answer.headers.get("Content-Type") or "").partition(";")[0]
    if "content" in said:
        assert kind in said["content"], (path, kind)
        hold(value_of(kind, answer.body), said["content"][kind]["schema"])
    else:
        assert answer.body == b"", (path, answer.body)
    headers = {name.lower(): resolved(one) for name, one in said.get("headers", {}).items()}
    found = {name.lower(): value for name, value in answer.headers.items() if SAID.fullmatch(name)}
    assert set(found) <= set(headers), (method, path, answer.status, set(found) - set(headers))
    assert {name for name, one in headers.items() if one.get("required")} <= set(found), (method, path, answer.status, found)
    for name, value in found.items():
        schema = resolved(headers[name]["schema"])
        hold(int(value) if schema.get("type") == "integer" else value, schema)


@pytest.fixture
def server(board):
    """A board with a day on which each kind of answer has something to say."""
    if PROGRAM.endswith("standin.py"):
        pytest.skip("the stand-in's answers are no real ones")
    server = board(DESKS)
    server.post(["FLT,AB1,5", "FLT,AB2,5", "FLT,AB3,5", "FLT,AB1,5"], "ap")
    server.post(["RWY,AB1,27L", "RWY,AB2,27L", "RATE,27L,2025-03-10T06:00Z,2025-03-10T07:00Z,1", "CLOCK,2025-03-10T05:30Z"], "tower")
    server.post([f"TOBT,AB{number},2025-03-10T06:00Z" for number in (1, 2, 3)], "ops")
    return server


def asked(server, method, path, status, query="", body=None, desk="tower", **headers):
    """Asks an operation, and holds its answer to the file."""
    digest = re.search(r"/page-([0-9a-f]+)/", server.get("/").body.decode())[1]
    url = path.format(**NAMES | {"digest": digest})
    answer = server.request(method, url + query, body, desk, **headers)
    assert answer.status == status, (method, url, answer)
    check(method, path, answer)
    return answer


def test_the_file_has_what_is_read(server):
    """Each GET, and its HEAD; what is there already; and over a scenario by POST, in each form."""
    for path in (*PLAIN, *OTHERS):
        answer = asked(server, "GET", path, 200)
        assert answer.body, path
        if tag := answer.headers.get("ETag"):
            assert asked(server, "GET", path, 304, If_None_Match=tag).body == b""
        if "digest" not in path:
            head = server.request("HEAD", path.format(**NAMES), None, "tower")
            assert (head.status, head.body) == (200, b"")
    for path in PLAIN:
        for form in ("text/plain", "text/csv", "application/json"):
            asked(server, "POST", path, 200, "" if "plan" in path or "svg" in path else "?scenario=SHUT", SHUT, Accept=form)
    for path in ("/v1/what-if", "/v1/compare", "/v1/compare/{name}"):
        for form in ("text/plain", "text/csv", "application/json"):
            # One table has no list of what moves.
            is_none = (path, form) == ("/v1/compare/{name}", "text/csv")
            asked(server, "POST", path, 400 if is_none else 200, "", SHUT, Accept=form)
    for body in (SHUT, "SCENARIO,SHUT\nFOO,1\n"):
        for form in ("text/plain", "application/json"):
            asked(server, "POST", "/v1/check", 200, "", body, Accept=form)
    for query in ("?minutes=30", "?minutes=no!"):
        asked(server, "GET", "/v1/next", 400 if "!" in query else 200, query)
    asked(server, "GET", "/v1/causes.json", 200, "?by=operator")
    for path in OF_DAY:
        for role in ("AO", "ATC", "READ"):
            asked(server, "GET", path, 400 if role == "READ" else 200, f"?role={role}")


def test_the_file_has_records(server):
    """Replies of each kind, and each reason for none."""
    replies = objects(asked(server, "POST", "/v1/records", 200, "", "FLT,AB7,5\nFLT,AB7,5", "ap", Idempotency_Key="1").body)
    assert [one["reply"] for one in replies] == ["ACCEPTED", "REFUSED"]
    for status, body, desk, headers in ((422, "FLT,AB8,5", "ap", {"Idempotency_Key": "1"}), (400, '"', "ap", {}), (403, "FLT,AB8,5", "wall", {}),
                                        (401, "FLT,AB8,5", "nobody", {}), (413, "A" * 65_537, "ap", {}), (421, "FLT,AB8,5", "ap", {"Host": "other"}),
                                        (403, "FLT,AB8,5", "ap", {"Origin": "http://evil.example"})):
        asked(server, "POST", "/v1/records", status, "", body, desk, **headers)
    asked(server, "GET", "/v1/records", 200, "?flight=AB1&desk=ops&since=1")
    asked(server, "GET", "/v1/records", 400, "?since=-")
    for _ in range(21):
        wrong = server.request("GET", "/v1/who", None, "nobody")
    check("GET", "/v1/who", wrong)
    assert wrong.status == 429


def test_the_file_has_changes_of_day(server):
    """One that doesn't begin, and why; one that does; and what is asked of the day before."""
    wrong = "DAY,2025-03-17\nRUNWAY,27L,10,20\n"
    for status, query, body, desk in ((409, "", "", "tower"), (409, "?day=2025-03-17", "", "tower"), (422, "?even=yes&day=2025-03-11", wrong, "tower"), (400, "?even=yes", "", "tower"),
                                      (403, "", "", "ap"), (401, "", "", "nobody"), (413, "", "A" * 65_537, "tower"),
                                      (200, "?even=yes&day=2025-03-11", "", "tower"), (200, "?day=2025-03-11", "", "tower")):
        asked(server, "POST", "/v1/day", status, query, body, desk)
    for path in (*PLAIN, *OF_DAY, "/v1/records", "/v1/journal.csv"):
        assert asked(server, "GET", path, 200, "?day=2025-03-10").body
    for path in ("/v1/plan", "/v1/records", "/v1/journal.csv"):
        asked(server, "GET", path, 404, "?day=2025-03-09")
    assert objects(asked(server, "GET", "/v1/day.json", 200).body)[0]["before"] == "2025-03-10"


def test_the_file_has_what_is_not_there(server):
    """404, 422, and a position that doesn't come."""
    for path, names, status in (("/v1/why/{flight}", {"flight": "NIX"}, 404), ("/v1/options/{flight}.json", {"flight": "NIX"}, 404), ("/v1/load/{runway}", {"runway": "01X"}, 404),
                                ("/v1/records/{position}/sentence", {"position": "1"}, 404), ("/page-{digest}/{file}", {"file": "no.js"}, 404)):
        with mock.patch.dict(NAMES, names):
            asked(server, "GET", path, status)
    asked(server, "POST", "/v1/what-if", 422, "", "SCENARIO\n")
    for path in ("/v1/plan", "/health", "/ready", "/metrics", "/v1/kinds", "/"):
        assert asked(server, "GET", path, 503, Cdm_After="999").headers["Retry-After"]
    answer = server.request("PUT", "/v1/plan", b"", "tower")
    hold(json.loads(answer.body), {"$ref": "#/components/schemas/Problem"})
    assert answer.status == 405 and answer.headers["Allow"]


def test_the_file_has_sessions(server):
    for body, status in (('{"desk":"ap","token":"token-ap"}', 204), ('{"desk":"ap","token":"no"}', 401), ("{}", 400)):
        asked(server, "POST", "/v1/session", status, "", body, None)
    asked(server, "DELETE", "/v1/session", 204, "", None, "ap")


def streamed(server, desk, wanted, talk=lambda: None, query=""):
    """The answer of a stream of events, up to the last of the events that are wanted."""
    connection = http.client.HTTPConnection("127.0.0.1", server.port, timeout=60)
    connection.request("GET", f"/v1/events{query}", None, {"Authorization": f"Bearer token-{desk}"})
    answer, text, wanted = connection.getresponse(), b"", set(wanted)
    talk()
    while wanted or not text.endswith(b"\n\n"):
        line = answer.readline()
        text += line
        wanted.discard(line.decode().strip().removeprefix("event: "))
    connection.close()
    return mock.Mock(status=answer.status, headers=answer.headers, body=text)


def test_the_file_has_events(server):
    def talk():
        server.post(["FLT,AB8,5", "FLT,AB8,5"], "ap")
    check("GET", "/v1/events", streamed(server, "ap", ("reply", "refused", "view"), talk))
    check("GET", "/v1/events", streamed(server, "ap", ("reset",), query="?since=0-0"))
    check("GET", "/v1/events", streamed(server, "ap", ("end",), lambda: server.process.terminate()))


def test_each_operation_was_asked():
    """By the tests above."""
    posted = {*PLAIN, "/v1/day", "/v1/what-if", "/v1/check", "/v1/compare", "/v1/compare/{name}", "/v1/records", "/v1/session"}
    read = {*PLAIN, *OTHERS, "/v1/events"}
    assert {(path, method) for path, item in DOCUMENT["paths"].items() for method in METHODS if method in item} == {
        *((path, "post") for path in posted), *((path, "get") for path in read), ("/v1/session", "delete")}


def test_each_status_of_records_says_what_to_do():
    """The page's table of what a desk got has each status that records may get, once, and that of a proxy whose server is away, which may stand
    for records that were taken."""
    page = (ROOT / "docs" / "HTTP.md").read_text()
    table = page[page.index("| the desk got |"):].partition("\n\n")[0]
    rows = {row.split("|")[1]: row.split("|")[2] for row in table.splitlines()}
    found = [status for got in rows for status in re.findall(r"\d{3}", got)]
    assert sorted(found) == sorted([*DOCUMENT["paths"]["/v1/records"]["post"]["responses"], "502"])
    assert [said for got, said in rows.items() if "502" in got] == [" may be in the log "]


def application():
    """The server's routes."""
    parts = {name: mock.Mock() for name in ("callers", "log", "day", "sequencer", "answers", "events")}
    return Board(**parts).application()


async def routes_of(routes, asked):
    """The server's own route of each request, None where it has none."""
    found = [await routes.router.resolve(make_mocked_request(method.upper(), url)) for method, url in asked]
    return [None if one.http_exception else one.route for one in found]


def is_in_file(method, url):
    """Whether a path of the file is that of a request."""
    paths = [path for path, item in DOCUMENT["paths"].items() if method in item]
    return any(re.fullmatch(re.sub(r"\\\{\w+\\\}", "[^/.]+", re.escape(path)), url) for path in paths)


def test_each_path_is_a_route_and_each_route_a_path():
    """Also with each ending, and of each of the commands that one route has."""
    routes, sample = application(), NAMES | {"digest": "0", "file": "x"}
    named = [(method, path.format(**sample)) for path, item in DOCUMENT["paths"].items() for method in item if method in METHODS]
    every_route = {route for resource in routes.router.resources() for route in resource if route.method != "HEAD"}
    assert set(asyncio.run(routes_of(routes, named))) == every_route and len(every_route) > 20
    words = {word for resource in routes.router.resources() for word in re.findall("[a-z-]{3,}", str(resource.get_info()))}
    tried = [(method, f"/v1/{word}{behind}{ending}") for word in sorted(words) for behind in ("", "/AB1") for ending in ("", ".csv", ".json", ".svg")
             for method in ("get", "post", "delete")]
    are_routes = [route is not None for route in asyncio.run(routes_of(routes, tried))]
    assert sum(are_routes) >= 40
    for (method, url), is_route in zip(tried, are_routes):
        assert is_route == is_in_file(method, url), (method, url)


def test_the_file_is_sound():
    """Each reference leads somewhere, each schema is one, each name in a path is a parameter, and nothing is there for nobody."""
    named = {one["$ref"] for one in every(DOCUMENT) if isinstance(one.get("$ref"), str)}
    for name in named:
        assert resolved({"$ref": name}) is not None
    parts = DOCUMENT["components"]
    for kind in ("schemas", "parameters", "responses", "headers"):
        assert {f"#/components/{kind}/{name}" for name in parts[kind]} <= named, kind
    for schema in [*parts["schemas"].values(), *(one["schema"] for kind in ("parameters", "headers") for one in parts[kind].values())]:
        jsonschema.Draft202012Validator.check_schema(schema)
    for path, item in DOCUMENT["paths"].items():
        for method in set(item) & set(METHODS):
            told = [resolved(one) for one in (*item.get("parameters", ()), *item[method].get("parameters", ()))]
            assert re.findall(r"\{(\w+)\}", path) == [one["name"] for one in told if one["in"] == "path"], path
            assert {"200", "204"} & set(item[method]["responses"]), path
    assert tuple(parts["schemas"]["Code"]["enum"]) == CODES and tuple(parts["schemas"]["Role"]["enum"]) == ROLES
