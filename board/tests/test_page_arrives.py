"""What the page shows is the day, whatever came between: another log at the old address, a reset or a sign-in while the plan is read, a
record whose fate isn't known. The same schedules, and many more, are drawn by the simulator; these are in a browser over a real server."""
import json
import signal
import time

from browser import AIRPORT, DAY, WAIT, fill, until
from test_page_desks import DENIED, DESKS, sign_in

# Holds the answers to questions for the plan until they are let go; they are those of the moment at which they were asked for.
HOLD = """window.held = []; const real = window.fetch; window.fetch = async (path, ...words) => {
    const got = await real(path, ...words);
    if (String(path) === '/v1/plan.json' && window.held) await new Promise((go) => window.held.push(go));
    return got; };"""
LET_GO = "const { held } = window; window.held = null; for (const go of held) go();"
SHOWN = "return Object.fromEntries([...document.querySelectorAll('#all tbody tr')].map((r) => [r.dataset.flight, r.cells[0].textContent.slice(0, 5).trim()]))"
# Each with its TSAT as it is planned; a runway takes two in ten minutes, so a CLOCK behind them moves all.
MANY = [f"{letter}{number:03}" for letter in "XY" for number in range(60)]
CROWDED = {"AP": [f"FLT,{name},5" for name in MANY], "ATC": [f"RWY,{name},27L" for name in MANY] + ["CLOCK,2025-03-10T05:50Z"],
           "AO": [f"TOBT,{name},2025-03-10T06:00Z" for name in MANY]}


def start_ups(server, desk=None):
    """Each planned flight's TSAT, as the server says it."""
    plan = json.loads(server.get("/v1/plan.json", desk).body)
    return {row["flight"]: row["tsat"][11:16] for row in plan["flights"] if row["tsat"]}


def is_the_day(shown, desk=None):
    """Until the page shows each flight's TSAT as the server says it, and that it is connected."""
    truth = start_ups(shown.server, desk)
    until(lambda: {name: at for name, at in shown.js(SHOWN).items() if ":" in at} == truth, 2 * WAIT)
    shown.says("#conn", "Connected")
    assert not shown.js("return document.documentElement.classList.contains('is-lost')")


def test_a_shorter_log_at_the_old_address(page):
    """The next day at the same port: another log, with fewer records than the page has seen. Nothing of the first day stays."""
    shown = page().open()
    shown.allowed += ["ERR_", "503 (Service Unavailable)"]
    server = shown.server
    server.end()
    server.airport.write_text(AIRPORT.replace("2025-03-10", "2025-03-11"))
    server.log = server.folder / "next.db"
    server.start()
    fill(server, {"AP": ["FLT,NEW1,5", "FLT,NEW2,5"], "ATC": ["RWY,NEW1,27L", "CLOCK,2025-03-11T05:00Z"], "AO": ["TOBT,NEW1,2025-03-11T05:30Z"]})
    shown.until("return document.querySelector('#all tr[data-flight=NEW1]') !== null", seconds=4 * WAIT)
    is_the_day(shown)
    assert sorted(shown.js("return [...document.querySelectorAll('#all tbody tr')].map((r) => r.dataset.flight)")) == ["NEW1", "NEW2"]
    until(lambda: shown.flights("next") == ["NEW1"])
    assert shown.text(".now time") == "05:00"
    shown.until("return document.querySelector('header dd').textContent === '1'")
    # It follows the new one.
    server.post("TOBT,NEW1,2025-03-11T05:40Z", Cdm_Role="AO")
    shown.until("return document.querySelector('#next tr[data-flight=NEW1]').innerText.includes('05:40')")


def test_a_reset_while_the_plan_is_read(page):
    """A CLOCK and a CLOSE that each move more than 100 flights: the second comes while the plan is read for the first."""
    shown = page(day=CROWDED).open()
    shown.js(HOLD)
    shown.server.post("CLOCK,2025-03-10T06:30Z", Cdm_Role="ATC")
    shown.until("return window.held.length > 0", seconds=2 * WAIT)
    before = start_ups(shown.server)
    shown.server.post("CLOSE,27L,2025-03-10T06:45Z,2025-03-10T07:15Z", Cdm_Role="ATC")
    # An own record behind both moves the page's position on.
    shown.server.post(f"TOBT,{MANY[-1]},2025-03-10T06:35Z", Cdm_Role="AO")
    assert sum(at != before.get(name) for name, at in start_ups(shown.server).items()) > 100
    time.sleep(0.5)  # until their events are here
    shown.js(LET_GO)
    is_the_day(shown)
    assert shown.text(".now time") == "06:30"


def test_a_sign_in_while_the_plan_is_read(page):
    """Who signs in while the plan is being read gets it, and what comes behind it."""
    shown = page(DESKS, day=CROWDED | {"ATC": CROWDED["ATC"][:-1]})
    shown.server.write_desks(DESKS, "anyone")
    shown.server.process.send_signal(signal.SIGHUP)
    until(lambda: shown.server.get("/v1/who").status == 200)
    shown.allowed += DENIED
    shown.open()
    shown.js(HOLD)
    first = shown.tab("")
    shown.click("#b-sign-in")
    sign_in(shown, "ao")
    shown.until("return document.querySelector('#desk').textContent === 'ao'")
    shown.close_tab(first)
    # It moves more than 100 flights, so the plan is read anew.
    shown.server.post("CLOSE,27L,2025-03-10T06:45Z,2025-03-10T07:15Z", "atc")
    shown.until("return window.held.length > 0", seconds=2 * WAIT)
    shown.click("#b-sign-out")
    shown.until("return document.querySelector('#b-sign-in').checkVisibility()")
    shown.click("#b-sign-in")
    sign_in(shown, "ground-2")
    shown.until("return document.querySelector('#desk').textContent === 'ground-2'")
    shown.server.post(f"TOBT,{MANY[-1]},2025-03-10T06:35Z", "ao")
    shown.js(LET_GO)
    is_the_day(shown, "wall")
    shown.server.post(f"TOBT,{MANY[-1]},2025-03-10T06:30Z", "ao")
    is_the_day(shown, "wall")


def test_504_then_503_for_a_record(page):
    """The reply is lost on its way, then nothing is taken: it isn't known whether the record stands, and it keeps its key, so it never
    stands twice, over what another desk said in between."""
    shown = page().open("#DLH2")
    shown.allowed += ["504 (Gateway Timeout)", "503 (Service Unavailable)"]
    shown.choose("#role", "AO")
    shown.says("#p-flight form", "Kind")
    before = len(shown.server.records())
    shown.js("""window.keys = []; const real = window.fetch; window.fetch = async (path, options, ...words) => {
        if (path !== '/v1/records' || options?.method !== 'POST') return real(path, options, ...words);
        const tries = keys.push(options.headers['Idempotency-Key']);
        if (tries === 1) { await real(path, options); return new Response('<html>gateway time-out</html>', { status: 504 }); }
        if (tries === 2) return new Response(JSON.stringify({ status: 503, detail: 'the log isn’t reached' }), { status: 503, headers: { 'Content-Type': 'application/problem+json' } });
        return real(path, options, ...words); };""")
    shown.type("#p-flight form [name=time]", "06:30")
    shown.click("#p-flight form button")
    shown.says("#p-flight .reply", "No reply. It isn’t known whether the record was taken.")
    between, = shown.server.post("TOBT,DLH2,2025-03-10T06:40Z", Cdm_Role="GH")
    assert between["reply"] == "ACCEPTED"
    shown.click("#p-flight form button")
    shown.says("#p-flight .reply", "Not known. It isn’t known whether the record was taken.")
    shown.click("#p-flight form button")
    shown.says("#p-flight .reply", "Accepted.")
    assert len(shown.js("return keys")) == 3 and len(set(shown.js("return keys"))) == 1
    assert [(one["role"], one["line"]) for one in shown.server.records()[before:]] == [
        ("AO", "TOBT,DLH2,2025-03-10T06:30Z"), ("GH", "TOBT,DLH2,2025-03-10T06:40Z")]


def test_totals_say_of_which_record_they_are(page):
    """Under them, always in the same place; while the rows are newer, in words."""
    shown = page()
    server = shown.server
    server.program('[ "$1" != compare ] || sleep 3')
    server.end()
    server.start()
    shown.open()
    under = "return getComputedStyle(document.querySelector('header dl'), '::after').content"
    last = json.loads(server.get("/health").body)["position"]
    shown.until(f"{under} === arguments[0]", f'"of record {last}"')
    box = shown.js("const { x, y, height } = document.querySelector('#warnings').getBoundingClientRect(); return [x, y, height]")
    server.post("TOBT,DLH1,2025-03-10T06:20Z", Cdm_Role="AO")
    shown.until("return document.querySelector('#next tr[data-flight=DLH1]').innerText.includes('06:20')")
    shown.until(f"{under} === arguments[0]", f'"still of record {last}"')
    assert shown.js("return document.querySelector('header dl').getAttribute('aria-label')") == f"Totals of record {last}"
    shown.until(f"{under} === arguments[0]", f'"of record {last + 1}"', seconds=2 * WAIT)
    assert shown.js("return document.querySelector('header dl').getAttribute('aria-label')") == "Totals"
    assert shown.js("const { x, y, height } = document.querySelector('#warnings').getBoundingClientRect(); return [x, y, height]") == box


# Rows are made in slices; each of their pauses is as long as that of a page that has much to do.
SLOW = "scheduler.yield = () => new Promise((go) => setTimeout(go, arguments[0]));"
# What is shown, at each look: TSAT and runway of each flight in both tables, NOW, and of which record the totals are.
LOOK = """window.looks = new Set();
    const rows = (table, at) => [...document.querySelectorAll(`${table} tbody tr`)].map((r) => [r.dataset.flight, r.cells[0].textContent.slice(0, 5), r.cells[at].textContent]);
    window.look = () => looks.add(JSON.stringify([Object.fromEntries(rows('#all', 3).map(([name, ...cells]) => [name, cells])), rows('#next', 2),
      document.querySelector('.now time').innerText, document.querySelector('header dl').dataset.of]));
    setInterval(look, 20);"""


MORE = {"AP": [f"FLT,N{number:03},5" for number in range(250)]}


def as_shown(plan):
    """What a page shows of a plan."""
    return {row["flight"]: [row["tsat"][11:16] if row["tsat"] else "–", row["runway"] or "–"] for row in plan["flights"]}


def test_what_is_shown_is_of_one_position(page):
    """A plan with many flights that are new to the page, whose rows take a while, and behind it two records: at each moment the rows of both
    tables, NOW and the totals are those of one record, or the totals say that they are of an older one."""
    shown = page(day=CROWDED | {"AP": CROWDED["AP"] + ["FLT,Z1,5", "FLT,Z2,5"], "ATC": CROWDED["ATC"] + ["RWY,Z1,09", "RWY,Z2,09"],
                                "AO": CROWDED["AO"] + ["TOBT,Z1,2025-03-10T06:00Z", "TOBT,Z2,2025-03-10T06:10Z"]}).open()
    server, truths = shown.server, {}

    def truth():
        plan = server.get("/v1/plan.json")
        position = int(plan.headers["ETag"].strip('"').rpartition("-")[2])
        truths[position] = json.loads(plan.body)
        return position
    truth()
    shown.js(LOOK)
    shown.js("""window.held = []; const real = window.fetch; window.fetch = async (path, ...words) => {
        if (String(path) === '/v1/plan.json' && window.held) await new Promise((go) => window.held.push(go));
        return real(path, ...words); };""")
    server.post("CLOSE,27L,2025-03-10T06:00Z,2025-03-10T06:30Z", Cdm_Role="ATC")
    shown.until("return window.held.length > 0", seconds=2 * WAIT)
    fill(server, MORE)
    read = truth()
    shown.js(SLOW, 100)
    shown.js(LET_GO)
    time.sleep(0.3)
    for line in ("RWY,Z1,27L", "CLOCK,2025-03-10T05:51Z"):
        server.post(line, Cdm_Role="ATC")
        last = truth()
    is_the_day(shown)
    shown.until(f"return document.querySelector('header dl').dataset.of === 'of record {last}'", seconds=2 * WAIT)
    looks = [json.loads(look) for look in shown.js("look(); return [...looks]")]
    assert any("N000" in rows and of == f"of record {read}" for rows, _, _, of in looks) or len(looks) > 2
    for rows, ahead, now, of in looks:
        mine = [position for position, plan in truths.items() if (as_shown(plan), plan["now"][11:16]) == (rows, now)]
        assert mine, (now, of, [name for name, cells in rows.items() if cells != as_shown(truths[last]).get(name)][:5])
        assert all(rows[name] == cells for name, *cells in ahead)
        assert of in {f"of record {position}" for position in mine} or of.startswith("still of record "), (mine, of)


def test_an_open_flight_is_of_the_day_that_is_shown(page):
    """Another log with many flights, whose rows take a while: the flight that is open is the one of the table until they are there."""
    shown = page().open("#BAW3")
    shown.allowed += ["ERR_", "503 (Service Unavailable)"]
    shown.js(SLOW, 100)
    shown.js("""window.looks = new Set();
        const cell = (selector) => document.querySelector(selector)?.textContent ?? '';
        setInterval(() => looks.add(`${cell('#all tr[data-flight=BAW3] td')} ${cell('#p-flight .c-tsat')}`), 20);""")
    server = shown.server
    server.end()
    server.log = server.folder / "next.db"
    server.start()
    fill(server, {"AP": ["FLT,BAW3,5", *MORE["AP"]], "ATC": ["RWY,BAW3,27L", "CLOCK,2025-03-10T05:00Z"], "AO": ["TOBT,BAW3,2025-03-10T05:30Z"]})
    shown.until("return document.querySelectorAll('#all tbody tr').length === 251", seconds=4 * WAIT)
    is_the_day(shown)
    shown.until("return document.querySelector('#p-flight .c-tsat').textContent === '05:30'")
    looks = shown.js("return [...looks]")
    assert "06:00 06:00" in looks and all(len(set(look.split())) == 1 for look in looks), looks


# A browser that never goes on behind a pause of the page, and how many of them a hidden page made.
STOPPED = {"source": "window.paused = 0; scheduler.yield = () => { paused += document.hidden; return new Promise(() => {}); };"}


def test_a_page_that_nobody_sees(page):
    """A browser stops much of what a hidden tab wants to do later. The tab follows the day nevertheless, and so does one that is opened there."""
    shown = page()
    stopped = shown.driver.execute_cdp_cmd("Page.addScriptToEvaluateOnNewDocument", STOPPED)
    try:
        shown.open()
        shown.js("window.open('/health')")
        first, second = shown.driver.window_handles
        shown.driver.switch_to.window(second)
        shown.driver.execute_cdp_cmd("Page.bringToFront", {})
        shown.until("return opener.document.hidden")
        fill(shown.server, MORE | {"ATC": ["CLOCK,2025-03-10T05:51Z"]})
        all_are_there = "return opener.document.title.startsWith('05:51') && opener.document.querySelectorAll('#all tbody tr').length === 257"
        shown.until(all_are_there, seconds=2 * WAIT)
        shown.js("opener.document.title = ''; opener.location.reload()")
        shown.until(all_are_there, seconds=2 * WAIT)
        assert shown.js("return opener.document.hidden")
        assert shown.js("return opener.paused") == 0
        shown.close_tab(first)
    finally:
        shown.driver.execute_cdp_cmd("Page.removeScriptToEvaluateOnNewDocument", stopped)


def test_a_pause_that_never_ends(page):
    """Rows are made in slices, with a pause between them. The page goes on also where the browser doesn't say that a pause has ended."""
    shown = page(day=DAY | {"AP": DAY["AP"] + MORE["AP"]})
    stopped = shown.driver.execute_cdp_cmd("Page.addScriptToEvaluateOnNewDocument", STOPPED)
    try:
        shown.open()
        shown.until("return document.querySelectorAll('#all tbody tr').length === 257", seconds=2 * WAIT)
    finally:
        shown.driver.execute_cdp_cmd("Page.removeScriptToEvaluateOnNewDocument", stopped)
