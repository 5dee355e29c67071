"""The page over a full day: how soon it shows, how soon an event is seen, and that it never stalls. Limits are for an idle machine,
multiplied by BOARD_PAGE_FACTOR. What is measured is the page: where the machine kept it from its work, it is measured again."""
import itertools
import json
import time
from concurrent.futures import ThreadPoolExecutor

import pytest
from browser import FACTOR, Page
from conftest import Server, figure
import processors
from processors import Taken

COUNT, RECORDS, RATE = 2000, 240, 20
TASK, EVENT, PAINT = 100 * FACTOR, 100 * FACTOR, 1000 * FACTOR  # ms
TRIES = 3
AIRPORT = "DAY,2025-03-10\n" + "".join(f"RUNWAY,{name},10,12\n" for name in ("09", "27L", "18", "36")) + "".join(
    f"TAXI,*,{name},15\n" for name in ("09", "27L", "18", "36"))
RUNWAYS = ("09", "27L", "18", "36")
# What is told of long tasks.
WATCH = r"""
window.long = [];
new PerformanceObserver((list) => { for (const e of list.getEntries()) window.long.push([e.startTime, e.duration]); })
  .observe({type: 'longtask', buffered: true});
"""


def name_of(number):
    return f"{('DLH', 'BAW', 'AFR', 'RYR')[number % 4]}{number}"


def at(minute):
    return f"2025-03-10T{minute // 60:02}:{minute % 60:02}Z"


@pytest.fixture(scope="module")
def full(tmp_path_factory):
    """A server with a full day: 2,000 flights on four runways."""
    folder = tmp_path_factory.mktemp("full")
    server = Server(folder, airport=AIRPORT)
    # Quickly into the log: as a feed that is imported.
    import os
    import subprocess
    from conftest import ROOT
    lines = [f"AP,FLT,{name_of(n)},5" for n in range(COUNT)] + [f"ATC,RWY,{name_of(n)},{RUNWAYS[n % 4]}" for n in range(COUNT)]
    lines += [f"AO,TOBT,{name_of(n)},{at(240 + n * 900 // COUNT)}" for n in range(COUNT)] + ["ATC,CLOCK,2025-03-10T06:00Z"]
    (folder / "feed.csv").write_text("\n".join(lines) + "\n")
    subprocess.run([str(ROOT / "cdmboard"), "import", str(server.airport), str(server.log), str(folder / "feed.csv")], check=True,
                   env=server.environment)
    assert os.path.exists(server.log)
    yield server.start()
    server.end()


@pytest.fixture
def shown(request, full):
    from browser import missing, size
    if missing():
        pytest.skip(f"{request.node.name}: {missing()}")
    driver = request.getfixturevalue("chromium")
    size(driver, 1280, 900)
    page = Page(driver, full)
    watch = driver.execute_cdp_cmd("Page.addScriptToEvaluateOnNewDocument", {"source": WATCH})
    driver.get_log("browser")
    yield page
    driver.execute_cdp_cmd("Page.removeScriptToEvaluateOnNewDocument", watch)
    assert page.told() == []
    driver.get("about:blank")


def measured(shown, measure):
    """Measures a fresh page until all spans of one try are within their limits; each is (start, length, limit, whether it ends as it is drawn) in ms
    of the page's clock.

    A span goes on while other processes, or other machines of the same host, have the processor that the page waits for. So a try in which that
    explains each span that is too long is repeated, at most twice. A span that is too long without that too is the page's own: it ends the test."""
    for number in range(1, TRIES + 1):
        shown.driver.execute_cdp_cmd("Network.clearBrowserCache", {})
        assert shown.told() == []
        shown.driver.get_log("performance")
        with Taken(shown.driver.service.process.pid) as taken:
            shown.open()
            shown.until("return document.querySelectorAll('#all tbody tr').length === 2000")
            time.sleep(2)
            spans = measure()
        origin = shown.js("return performance.timeOrigin")
        late = [(length, taken.within(origin + start, length, is_drawn), limit) for start, length, limit, is_drawn in spans if length >= limit]
        if not late:
            return
        figure(f"try {number}: " + ", ".join(f"{length:.0f} ms, of which {lost:.0f} were taken" for length, lost, _ in late))
        assert all(length - lost < limit for length, lost, limit in late), "the page's own work takes too long"
    assert not late, "no try was within the limits"


def tasks(shown):
    """The page's long tasks, as spans; the longest one."""
    found = [(start, length, TASK, False) for start, length in shown.js("return window.long")]
    return found, max((length for _, length, *_ in found), default=0)


def test_what_the_machine_took(tmp_path, monkeypatch):
    """Of two pages the one that runs counts. Its thread waited 30 ms on processor 2, of which the host took 100 ms, and then rested while the host
    took 50 ms more of it; the thread that puts it together waited 20 ms on processor 1, of which the host took 40 ms. What it took of the others,
    much more, nobody else has to answer for."""
    monkeypatch.setattr(processors, "PROC", tmp_path)
    monkeypatch.setattr(processors, "TICKS", 100)

    def look(moment, hosts, times):
        cpus = "".join(f"cpu{number} 0 0 0 0 0 0 0 {host} 0 0\n" for number, host in enumerate(hosts))
        (tmp_path / "stat").write_text(f"cpu  0 0 0 0 0 0 0 {sum(hosts)} 0 0\n{cpus}intr 0\n")
        for (process, thread, name), (processor, ran, waited) in times.items():
            folder = tmp_path / str(process) / "task" / str(thread)
            folder.mkdir(parents=True, exist_ok=True)
            (tmp_path / str(process) / "stat").write_text(f"{process} (chromium) S 7 0\n")
            (tmp_path / str(process) / "cmdline").write_bytes(b"chromium\0--type=renderer\0")
            (folder / "comm").write_text(f"{name}\n")
            (folder / "stat").write_text(f"{thread} ({name}) S 7 {' '.join(['0'] * 34)} {processor} 0 0\n")
            (folder / "schedstat").write_text(f"{ran * 10**6} {waited * 10**6} 1\n")
        taken.look(list(processors.pages_of(7)))
        taken.looks[-1] = taken.looks[-1]._replace(at=moment)
    taken, page, drawing, other = Taken(7), (8, 8, "chromium"), (8, 9, "Compositor"), (11, 11, "chromium")
    look(1000, (0, 0, 0, 0), {page: (2, 0, 0), drawing: (1, 0, 0), other: (0, 0, 0)})
    look(1200, (60, 4, 10, 30), {page: (2, 150, 30), drawing: (1, 5, 20), other: (0, 1, 500)})
    look(1300, (90, 4, 15, 30), {page: (2, 150, 30), drawing: (1, 5, 20), other: (0, 1, 500)})
    assert taken.within(1000, 300) == 30 + 100
    assert taken.within(1000, 300, is_drawn=True) == 30 + 100 + 20 + 40
    assert taken.within(1250, 50, is_drawn=True) == 0 and taken.within(1100, 20) == 20


def test_a_long_task_of_the_page_is_never_excused(shown):
    def busy():
        shown.js("window.long.length = 0; setTimeout(() => { const end = performance.now() + arguments[0]; while (performance.now() < end); })", 1.5 * TASK)
        time.sleep(1.5 * TASK / 1000 + 1)
        return tasks(shown)[0]
    with pytest.raises(AssertionError):
        measured(shown, busy)


def test_a_full_day_at_first(shown):
    def at_first():
        paint = shown.js("return performance.getEntriesByName('first-contentful-paint')[0].startTime")
        found, longest = tasks(shown)
        figure(f"page, {COUNT} flights: first paint {paint:.0f} ms, longest task {longest:.0f} ms")
        return [(0, paint, PAINT, True), *found]
    measured(shown, at_first)
    # What went over the wire, besides the plan.
    messages = [json.loads(line["message"])["message"] for line in shown.driver.get_log("performance")]
    paths = {message["params"]["requestId"]: message["params"]["request"]["url"] for message in messages if message["method"] == "Network.requestWillBeSent"}
    bytes_of = {}
    for message in messages:
        if message["method"] == "Network.dataReceived":
            path = paths.get(message["params"]["requestId"], "")
            bytes_of[path] = bytes_of.get(path, 0) + message["params"]["encodedDataLength"]
        if message["method"] == "Network.loadingFinished":
            path = paths.get(message["params"]["requestId"], "")
            bytes_of[path] = max(bytes_of.get(path, 0), message["params"]["encodedDataLength"])
    ours = {path: count for path, count in bytes_of.items() if "127.0.0.1" in path and "plan.json" not in path and "/v1/picture" not in path}
    assert sum("board.css" in path or path.endswith(".js") for path in ours) > 20
    figure(f"page: {sum(ours.values())} bytes at first load besides the plan, {sum(count for path, count in ours.items() if '/v1/' not in path)} of them files")
    assert sum(ours.values()) <= 100_000, sorted(ours.items(), key=lambda one: -one[1])[:12]


# When the event of a TOBT came, and when its row showed it, by flight and time.
FOLLOW = r"""window.long.length = 0; window.shown = new Map(); window.cameOf = new Map();
new MutationObserver((list) => requestAnimationFrame(() => { const now = performance.now();
  for (const {target} of list) { const row = (target.closest ? target : target.parentElement)?.closest?.('tr[data-flight]');
    if (row) { const key = `${row.dataset.flight} ${row.cells[5].textContent}`; if (!window.shown.has(key)) window.shown.set(key, now); } } }))
.observe(document.querySelector('#all'), {subtree: true, childList: true, characterData: true});
const read = ReadableStreamDefaultReader.prototype.read;
ReadableStreamDefaultReader.prototype.read = async function (...words) {
  const got = await read.apply(this, words);
  if (typeof got.value === 'string') for (const [, name, time] of got.value.matchAll(/"line":"TOBT,([A-Z0-9]+),\d{4}-\d\d-\d\dT(\d\d:\d\d)Z"/g))
    window.cameOf.set(`${name} ${time}`, performance.now());
  return got;
};"""


def sent(server, shift):
    """Sends TOBTs at their rate, each when it is due, whatever the replies of those before it take; what changed, and how many seconds it took."""
    posted = []

    def post(number):
        time.sleep(max(0, began + number / RATE - time.monotonic()))
        name, minute = name_of(400 + number * 7), 420 + shift + number % 300
        reply = server.post(f"TOBT,{name},{at(minute)}", Cdm_Role="AO")[0]
        if reply["reply"] == "ACCEPTED" and reply["changes"]:
            posted.append((f"{name} {minute // 60:02}:{minute % 60:02}", len(reply["changes"])))
    began = time.monotonic()
    with ThreadPoolExecutor(12) as pool:
        list(pool.map(post, range(RECORDS)))
    return posted, time.monotonic() - began


def test_twenty_records_a_second(shown):
    shifts = iter(range(TRIES))

    def followed():
        shown.js(FOLLOW)
        posted, seconds = sent(shown.server, next(shifts))
        time.sleep(1.5)
        came, seen = shown.js("return [Object.fromEntries(window.cameOf), Object.fromEntries(window.shown)]")
        events = sorted((seen[key] - came[key], came[key]) for key, rows in posted if key in came and key in seen and rows <= 100)
        assert len(events) > 100, (len(posted), len(came), len(seen), posted[:3], list(came)[:3], list(seen)[:3])
        found, longest = tasks(shown)
        (median, at_median), (most, _) = events[len(events) // 2], events[-1]
        figure(f"page, {COUNT} flights, {RECORDS / seconds:.0f} records a second: an event is shown in {median:.0f} ms at the median, "
               f"{most:.0f} ms at most ({len(events)} events); longest task {longest:.0f} ms")
        assert RECORDS / seconds > 0.9 * RATE / FACTOR
        return [*found, (at_median, median, EVENT / 2, True), *((start, length, EVENT, True) for length, start in events)]
    measured(shown, followed)
    # And it is the plan's day in the end.
    plan = {row["flight"]: row["tsat"] for row in json.loads(shown.server.get("/v1/plan.json").body)["flights"]}
    hm = lambda time: time[11:16] if time and time.startswith("2025-03-10") else f"{time[8:10]} {time[11:16]}" if time else "–"
    read = "return Object.fromEntries([...document.querySelectorAll('#all tbody tr')].map((r) => [r.dataset.flight, r.cells[0].textContent]))"
    assert shown.js(read) == {name: hm(tsat) for name, tsat in plan.items()}
    order = shown.js("return [...document.querySelectorAll('#all [data-status=PLANNED] tbody tr')].map((r) => r.dataset.flight)")
    assert order == sorted(order, key=lambda name: (plan[name], name))


def test_a_day_that_is_read_anew(shown):
    """A CLOCK that moves more flights than an event may have: the whole plan is asked for, and no task is long."""
    steps = iter([5, 60, 60])  # minutes; another five would move few flights

    def anew():
        shown.js("window.long.length = 0; performance.clearResourceTimings()")
        now = json.loads(shown.server.get("/v1/plan.json").body)["now"]
        minute = int(now[11:13]) * 60 + int(now[14:16]) + next(steps)
        reply = shown.server.post(f"CLOCK,{at(minute)}", Cdm_Role="ATC")[0]
        began = time.monotonic()
        assert len(reply["changes"]) > 100
        shown.says(".now", f"NOW UTC {minute // 60:02}:{minute % 60:02}")
        plan = {row["flight"]: row["tsat"] for row in json.loads(shown.server.get("/v1/plan.json").body)["flights"]}
        last = max((row for row in reply["changes"] if row["tsat"]), key=lambda row: (row["tsat"], row["flight"]))
        shown.until("return document.querySelector(`#all tr[data-flight=${arguments[0]}]`).cells[0].textContent === arguments[1]", last["flight"],
                    plan[last["flight"]][11:16])
        seconds = time.monotonic() - began
        time.sleep(2)
        found, longest = tasks(shown)
        figure(f"page, {COUNT} flights, a CLOCK that changes {len(reply['changes'])}: shown in {seconds * 1000:.0f} ms, longest task {longest:.0f} ms")
        return found
    measured(shown, anew)


# A thousand records a minute, of the kinds that a day has; each try has flights of its own.
MINUTE, MOMENTS = 1000, 250
FIRST = itertools.count(50, 50)


def mixed(number, first):
    """The record of a moment, and its role. Flights leave, and take off ten records later; others get another TOBT, CTOT or priority."""
    away, kind = first + number // 5, number % 5
    if number == MOMENTS // 2:
        return "ATC", f"CLOCK,{at(440 + first // 50)}"
    return [("AO", f"TOBT,{name_of(700 + away)},{at(600 + number % 200)}"), ("ATC", f"OFF,{name_of(away)},{at(360)}"),
            ("ATC", f"AIR,{name_of(away - 2)},{at(361)}" if number >= 10 else f"PRIO,{name_of(1900 + number)},1"),
            ("NM", f"CTOT,{name_of(900 + away)},{at(800 + number % 200)}"), ("ATC", f"PRIO,{name_of(1200 + away)},{number % 9}")][kind]


@pytest.mark.parametrize("path", ["", "?op=DLH,BAW#DLH1000", "#act"], ids=["the tables", "a filter and a flight", "what to do"])
def test_a_thousand_records_a_minute(shown, path):
    """None of its tasks takes 200 ms, whatever is open; the most is said of all."""
    def sent_at(number, began, start, taken):
        time.sleep(max(0, began + number * 60 / MINUTE - time.monotonic()))
        role, line = mixed(number, start)
        taken.append(shown.server.post(line, Cdm_Role=role)[0]["reply"])

    def followed():
        shown.js("history.replaceState(null, '', '/' + arguments[0].split('#')[0]); dispatchEvent(new PopStateEvent('popstate')); location.hash = arguments[0].split('#')[1] ?? ''", path)
        shown.js("document.querySelector('#causes').open = true")
        time.sleep(2)
        shown.js("window.long.length = 0")
        start, began, taken = next(FIRST), time.monotonic(), []
        with ThreadPoolExecutor(12) as pool:
            list(pool.map(lambda number: sent_at(number, began, start, taken), range(MOMENTS)))
        seconds = time.monotonic() - began
        time.sleep(3)
        found, longest = tasks(shown)
        figure(f"page, {COUNT} flights, {MOMENTS * 60 / seconds:.0f} records a minute, {taken.count('ACCEPTED')} of {MOMENTS} accepted, {path or 'the tables'}: longest task {longest:.0f} ms")
        assert taken.count("ACCEPTED") > 0.9 * MOMENTS and MOMENTS * 60 / seconds > 0.9 * MINUTE / FACTOR
        return [(start, length, 2 * TASK, False) for start, length, *_ in found]
    measured(shown, followed)
