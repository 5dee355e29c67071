"""The page in a browser: what one sees, and what one can do. The day and its times by hand are in browser.py."""
import json

import pytest
from browser import FACTOR, WAIT, fill, until
from selenium_or_none import Keys

EARLY = [flight for flight in ("BAW3", "DLH1", "DLH2", "RYR6")]


def test_at_a_glance(page):
    shown = page().open()
    assert shown.text(".now") == "NOW UTC 05:50"
    assert shown.texts("header dd") == ["5", "1", "2", "46", "28"] and shown.texts("header dt") == [
        "placed", "late >15", "blocked", "delay min", "max delay"]
    assert shown.flights("next") == EARLY
    assert shown.row("next", "DLH2") == ["06:05 in 15", "DLH2", "27L", "A12", "06:00", "15", "–", "06:20", "5", "rate"]
    # Late by a word, not by colour alone.
    assert shown.row("next", "RYR6") == ["06:38 in 48", "RYR6", "09", "–", "06:10", "12", "–", "06:50", "late 28", "closure"]
    assert shown.texts("#blocked tbody tr") == ["EZY7 CTOT 27L 07:00 06:30", "KLM5 TOBT 27L – –"]
    assert shown.texts("#warnings li") == ["BLOCKED 1 of 2 EZY7 with a TOBT or CTOT", "OVERDUE, MISSED, EDGE, PAST, AHEAD, FULL, SHUT: none"]
    assert shown.texts("#all summary") == ["Blocked 2", "Planned 5"]
    assert shown.row("all", "AFR4") == ["06:53", "AFR4", "planned", "09", "–", "06:40", "12", "07:10", "07:05", "13"]
    heads = shown.js("return document.querySelector('#next th').innerText")
    assert heads == "TSAT" and "UTC" in shown.text("#h-next")


def test_the_runways(page):
    shown = page().open()
    assert [text.split(" ")[0] for text in shown.texts(".band h3")] == ["09", "27L"]
    assert shown.text("#rw-09") == "09 open, closes at 06:20 cells of 10 min"
    column = "const band = [...document.querySelectorAll('.band')].find((b) => b.innerText.startsWith(arguments[0]));" \
        "const at = [...band.querySelectorAll('thead th')].findIndex((h) => h.innerText === arguments[1]);" \
        "return [...band.querySelectorAll('tbody tr')].map((row) => row.children[at].innerText.replace(/\\s+/g, ' ').trim())"
    assert shown.js(column, "27L", "06:10") == ["2/2", "BAW3 DLH1"] and shown.js(column, "27L", "06:20") == ["1/2", "DLH2"]
    assert shown.js(column, "09", "06:20") == ["closed", ""] and shown.js(column, "09", "06:50") == ["1/2", "RYR6"]
    assert shown.js("return document.querySelectorAll('.band thead th')[1].innerText") == "05:50"


def test_the_warnings(page):
    """Each kind but BLOCKED, each flight once, with what is to be acted on first: A2 is overdue and missed its slot, A5 is at the edge of its window, A1 could have
    gone at 06:00, four are told ahead of the clock, three take off in a cell of two, and A4 in a closure."""
    at = lambda time: f"2025-03-10T{time}Z"
    names = [f"A{number}" for number in range(1, 8)]
    shown = page(day={"AP": [f"FLT,{name},5" for name in names], "AO": [f"TOBT,A1,{at('06:00')}", f"TOBT,A5,{at('07:00')}"],
                      "NM": [f"CTOT,A2,{at('06:20')}", f"CTOT,A5,{at('07:06')}"], "ATC": [f"RWY,{name},27L" for name in names]})
    fill(shown.server, {"ATC": [f"OFF,A2,{at('06:05')}", f"OFF,A3,{at('07:30')}", f"OFF,A4,{at('06:50')}", f"OFF,A6,{at('06:51')}",
                                f"OFF,A7,{at('06:52')}", f"CLOSE,27L,{at('07:00')},{at('07:06')}", f"CLOCK,{at('06:40')}"]})
    shown.open()
    assert shown.text("#h-w") == "Warnings 10 7 flights" and shown.texts("#warnings li") == [
        "OVERDUE A2 TTOT 06:20; MISSED CTOT 06:20", "EDGE A5 CTOT 07:06 TTOT 07:15", "PAST A1 TSAT 06:40", "AHEAD A3 07:30", "AHEAD A6 06:51",
        "AHEAD A7 06:52", "FULL 27L 07:00 3/2", "SHUT A4 27L TTOT 07:05; AHEAD 06:50", "BLOCKED: none"]
    # A new one says so for a minute, and is said in the live region at once.
    shown.server.post(f"OFF,A1,{at('06:19')}", Cdm_Role="ATC")
    shown.says("#warnings", "OVERDUE new A1 TTOT 06:34", seconds=10 + WAIT)
    assert shown.text("#warnings li") == "OVERDUE new A1 TTOT 06:34"


def test_a_record_that_is_sent_elsewhere(page):
    shown = page().open()
    assert "Next 30 min: none moved since" in shown.text("#next .hd")
    shown.server.post("TOBT,DLH1,2025-03-10T06:20Z", Cdm_Role="AO")
    # DLH2 takes DLH1's place; DLH1 takes off at 06:35. Both say what they were, and why.
    shown.until("return document.querySelector('#next tr[data-flight=DLH1]').innerText.includes('06:20')")
    assert shown.row("next", "DLH1")[0] == "06:20 ▼ was 06:00" and shown.row("next", "DLH2")[0] == "06:00 ▲ was 06:05"
    assert shown.js("return ['DLH1', 'DLH2', 'BAW3'].map((n) => document.querySelector(`#next tr[data-flight=${n}]`).className.includes('moved'))"
                    ) == [True, True, False]
    assert shown.js("return document.querySelector('#all tr[data-flight=DLH1]').innerText").count("▼ was 06:00") == 1
    shown.until("return [...document.querySelectorAll('#next tbody tr')].map((r) => r.dataset.flight).join() === 'BAW3,DLH2,DLH1,RYR6'")
    # Which of the next 30 minutes moved since one looked, and why, without a click; also when the mark is gone.
    assert shown.text("#since").startswith("Next 30 min: 1 moved since ")
    shown.until("return document.querySelectorAll('#next tr.moved').length === 0", seconds=10 + WAIT)
    assert shown.row("next", "DLH1")[0] == "06:20 in 30" and "was 06:00: TOBT 06:20, AO " in shown.row("next", "DLH1")[9]
    assert "…" not in shown.text("#next")
    assert shown.row("next", "DLH2")[0] == "06:00 in 10" and "was 06:05: TOBT DLH1 06:20, AO " in shown.row("next", "DLH2")[9]
    shown.says("header dl", "41")  # the delays are 28 and 13 now
    shown.click("#seen")
    assert "was" not in shown.row("next", "DLH1")[9] and shown.text("#since").startswith("Next 30 min: none moved since ")


def test_the_mark_stays_ten_seconds(page):
    shown = page().open()
    shown.js("""window.marks = [];
        new MutationObserver(() => {
          const is = document.querySelector('#next tr[data-flight=DLH2]').classList.contains('moved');
          if (is !== (window.marks.at(-1)?.[0] ?? false)) window.marks.push([is, performance.now()]);
        }).observe(document.querySelector('#next tbody'), {subtree: true, attributes: true, childList: true});""")
    shown.server.post("TOBT,DLH1,2025-03-10T06:20Z", Cdm_Role="AO")
    shown.until("return window.marks.length === 2", seconds=12 * FACTOR)
    (_, began), (_, ended) = shown.js("return window.marks")
    assert 9_500 < ended - began < 10_000 + 1000 * FACTOR


def test_now_and_no_clock(page):
    shown = page().open()
    assert shown.js("return document.querySelector('#no-clock').hidden")
    # Three minutes pass, for the page and for the server's answers; it doesn't count on.
    shown.js("""window.passed = 180000; const now = Date.now; Date.now = () => now.call(Date) + window.passed;
        const { get } = Headers.prototype; Headers.prototype.get = function (name) {
            const told = get.call(this, name);
            return name === 'Date' && told ? new Date(Date.parse(told) + window.passed).toUTCString() : told; };""")
    shown.until("return !document.querySelector('#no-clock').hidden")
    assert shown.text(".now").startswith("NOW UTC 05:50 no CLOCK since ")
    shown.js("window.passed = 0")
    shown.server.post("CLOCK,2025-03-10T05:58Z", Cdm_Role="ATC")
    shown.says(".now", "NOW UTC 05:58")
    shown.until("return document.querySelector('#no-clock').hidden")
    assert shown.row("next", "DLH2")[0] == "06:05 in 7"


def test_a_filter_in_the_address(page):
    shown = page().open()
    shown.type("#filter [name=op]", "DLH")
    shown.until("return location.search === '?op=DLH'")
    assert shown.flights("next") == ["DLH1", "DLH2"] and shown.flights("all") == ["DLH1", "DLH2"] and shown.flights("blocked") == []
    assert shown.text("#filtered span") == "Filter: operator DLH. 2 of 7 flights: 2 placed, 0 late, 0 blocked, 5 minutes of delay, 5 at most. The line above and the runways show all."
    assert shown.texts("#warnings li")[0] == "BLOCKED 1 of 2 EZY7 with a TOBT or CTOT"
    first = shown.tab("?runway=09&status=planned")
    assert shown.flights("all") == ["RYR6", "AFR4"] and shown.flights("next") == ["RYR6"]
    shown.click("#show-all")
    assert shown.js("return location.search") == "" and len(shown.flights("all")) == 7
    shown.type("#filter [name=flight]", "7")
    assert shown.flights("all") == ["EZY7"] and shown.js("return location.search") == "?flight=7"
    # A flight that a record brings into the filter comes, one that it takes out goes.
    shown.choose("#filter [name=status]", "blocked")
    shown.server.post("CTOT,EZY7,-", Cdm_Role="NM")
    shown.until("return document.querySelectorAll('#all tbody tr:not([hidden])').length === 0")
    shown.close_tab(first)


def test_a_flight_why_it_waits_and_its_records(page):
    shown = page().open()
    shown.click('#next tr[data-flight="RYR6"] a')
    assert shown.js("return location.hash") == "#RYR6" and shown.js("return document.activeElement.id") == "h-f"
    shown.says("#waits", "CLOSURE")
    assert shown.texts("#waits li") == ["X 06:22–06:49 CLOSURE 28 min"]
    assert shown.text("#why-note") == "28 min, take-off 06:22 to 06:50"
    assert shown.text("#h-f") == "RYR6 planned, runway 09, no stand, priority 5, wake category M"
    assert shown.texts("#p-flight .facts dd") == ["06:10", "12", "–", "06:38", "06:50", "late 28"]
    records = [record for record in shown.server.records() if ",RYR6" in record["line"]]
    assert [record["line"] for record in records] == ["FLT,RYR6,5", "RWY,RYR6,09", "TOBT,RYR6,2025-03-10T06:10Z"]
    shown.until("return document.querySelectorAll('#f-records tr').length === 3")
    assert shown.texts("#f-records tr") == [
        f"{record['position']} {record['at'][11:19]} {record['role']} {words}"
        for record, words in zip(reversed(records), ("TOBT 06:10", "RWY 09", "FLT 5"))]
    # A link that can be sent.
    first = shown.tab("#DLH2")
    shown.says("#waits", "RATE")
    assert shown.texts("#waits li") == ["R 06:15–06:19 RATE 2/2 BAW3 DLH1 5 min"]
    shown.click('#waits a[href="#BAW3"]')
    shown.says("#why-note", "doesn’t wait")
    shown.driver.back()
    shown.says("#h-f", "DLH2")
    shown.open("#NIX99")
    assert shown.text("#f-unknown") == "This day has no such flight."
    shown.close_tab(first)
    shown.keys(Keys.ESCAPE)
    assert shown.js("return location.hash") == "" and shown.js("return document.activeElement.closest('tr').dataset.flight") == "RYR6"


def test_the_open_flight_follows_the_day(page):
    shown = page().open("#RYR6")
    shown.says("#waits", "CLOSURE")
    shown.server.post("OPEN,09,2025-03-10T06:40Z,2025-03-10T06:50Z", Cdm_Role="ATC")
    shown.says("#waits", "06:22–06:39 CLOSURE 18 min")
    assert shown.texts("#p-flight .facts dd") == ["06:10", "12", "–", "06:28", "06:40", "late 18"]


def test_a_form_of_the_desk_s_records(page):
    shown = page().open()
    shown.choose("#role", "GH")
    shown.until("return document.querySelector('#b-send').hidden === false")
    shown.click('#next tr[data-flight="DLH2"] a')
    shown.says("#p-flight form", "Kind")
    assert shown.js("return [...document.querySelector('#p-flight form select').options].map((o) => o.value)") == ["TOBT", "ICE"]
    # With one click: what to send if it is ten minutes late, and what comes of it. At 06:10 it takes off at 06:25.
    shown.says("#f-later", "10 minutes late: send TOBT 06:10. It would then start up at 06:10, delay 0.")
    shown.click("#f-later button")
    assert shown.text("#p-flight form code") == "TOBT,DLH2,2025-03-10T06:10Z"
    shown.type("#p-flight form [name=time]", "0630")
    assert shown.text("#p-flight form code") == "TOBT,DLH2,2025-03-10T06:30Z"
    assert "HH:MM UTC" in shown.text("#p-flight form .fields") and "a minute of the two days" in shown.text("#p-flight form .fields")
    shown.keys(Keys.ENTER)
    shown.says("#p-flight .reply", "Accepted.")
    assert shown.js("return document.activeElement.className").startswith("reply")
    shown.until("return document.querySelector('#next tr[data-flight=DLH2]').innerText.includes('06:30')")
    record = shown.server.records()[-1]
    assert (record["role"], record["line"], record["reply"]) == ("GH", "TOBT,DLH2,2025-03-10T06:30Z", "ACCEPTED")
    # The kinds' own forms and ranges, and a refusal in words, of which its what-if says the same before.
    shown.allowed.append("422 (Unprocessable Entity)")
    shown.choose("#p-flight form [name=kind]", "ICE")
    assert shown.js("return [...document.querySelector('#p-flight form .fields select').options].map((o) => o.value)") == ["NONE", "STAND", "REMOTE"]
    assert "0 with NONE, else 1 to 60" in shown.text("#p-flight form .fields")
    shown.choose("#p-flight form .fields select", "STAND")
    shown.type("#p-flight form [name=minutes]", "99")
    shown.click("#p-flight form button")
    shown.says("#p-flight .reply", "Nothing is changed.")
    shown.until("return document.querySelector('#p-flight .reply').innerText.includes('RANGE: ')")
    record = shown.server.records()[-1]
    words = shown.server.get(f"/v1/records/{record['position']}/sentence").body.decode().strip().rstrip(".")
    assert record["word"] == "RANGE" and words in shown.text("#p-flight .reply")
    shown.until("return document.querySelector('#f-records tr')?.innerText.includes('refused RANGE')")
    shown.click("#f-records tr button")
    shown.says("#f-records tr .words", words)
    # What the server itself refuses.
    shown.type("#p-flight form [name=minutes]", 'x"')
    shown.allowed.append("400 (Bad Request)")
    shown.click("#p-flight form button")
    shown.says("#p-flight .reply", "Not taken. line 1: no record of 1 to 100 bytes")


def test_records_of_no_flight_and_the_log(page):
    shown = page().open()
    shown.choose("#role", "ATC")
    shown.until("return document.querySelector('#b-send').hidden === false")
    shown.click("#b-send")
    shown.choose("#p-send [name=kind]", "CLOSE")
    assert shown.js("return [...document.querySelector('#p-send .fields select').options].map((o) => o.value)") == ["09", "27L"]
    shown.choose("#p-send .fields select", "27L")
    shown.type("#p-send [name=from]", "06:10")
    shown.type("#p-send [name=to]", "06:40")
    assert shown.text("#p-send code") == "CLOSE,27L,2025-03-10T06:10Z,2025-03-10T06:40Z"
    shown.click("#p-send form button")
    shown.says("#p-send .reply", "Accepted. 3 flights changed: BAW3, DLH1, DLH2.")
    shown.until("return document.querySelector('#s-records tr')?.innerText.includes('CLOSE 27L 06:10 06:40')")
    shown.says("#rw-27L", "closes at 06:10")


def test_what_if(page):
    shown = page().open()
    before = shown.server.records()
    shown.click("#b-what-if")
    shown.js("document.querySelector('#scenario').value = 'SCENARIO,OPEN-0630\\nOPEN,09,2025-03-10T06:30Z,2025-03-10T06:50Z'")
    shown.click("#p-what-if form button")
    shown.says("#wi-flights", "RYR6")
    # RYR6 takes off at 06:30 and so starts up at 06:18, 8 minutes late.
    assert shown.texts("#wi-table tr") == ["OPEN-0630 5 26 13 0 2 1", "day 5 46 28 1 2 0", "difference 0 −20 −15 −1 0"]
    assert shown.texts("#wi-flights tr") == ["RYR6 06:38 06:18 −20 min"]
    shown.says("#rw-09 + .scroll .wi", "RYR6*")
    assert shown.js("return getComputedStyle(document.querySelector('.wi')).display") == "table-row-group"
    # Its picture beside the day's, drawn by the program.
    shown.click("#b-pictures")
    shown.until("return document.querySelector('#drawn').shadowRoot?.querySelector('svg') != null")
    words = shown.js("return [...document.querySelector('#drawn').shadowRoot.querySelectorAll('text')].map((t) => t.textContent).join(' ')")
    assert "OPEN-0630" in words and words.count("RYR6") >= 2
    assert shown.js("return document.querySelector('#drawn').shadowRoot.querySelectorAll('script, a, image, foreignObject, style').length") == 0
    # A scenario that is refused, and a file that is wrong.
    shown.js("document.querySelector('#scenario').value = 'SCENARIO,BAD\\nTOBT,XY9,2025-03-10T06:30Z'")
    shown.click("#p-what-if form button")
    shown.says("#wi-table", "BAD Refused at line 2: XY9 has no FLT that was accepted before this record")
    shown.allowed.append("422 (Unprocessable Entity)")
    shown.js("document.querySelector('#scenario').value = 'SCENARIO,BAD\\n<b>FOO</b>,1'")
    shown.click("#p-what-if form button")
    shown.says("#wi-fault", 'Line 2: field 1 "<b>FOO</b>" is none of ')
    shown.keys(Keys.ESCAPE)
    assert shown.js("return document.querySelector('.wi')") is None and shown.server.records() == before


def test_the_connection_is_lost_and_comes_back(page):
    shown = page().open("#DLH2")
    shown.choose("#role", "AO")
    shown.says("#p-flight form", "Kind")
    shown.allowed += ["ERR_CONNECTION_REFUSED", "ERR_INCOMPLETE_CHUNKED_ENCODING", "ERR_CONNECTION_RESET", "ERR_EMPTY_RESPONSE"]
    position = len(shown.server.records())
    shown.server.kill()
    shown.says("#conn", "CONNECTION LOST since ", seconds=2 * FACTOR)
    assert f"UTC: the connection broke. Shown: record {position}. Nothing can be sent" in shown.text("#conn")
    assert shown.text(".now").startswith("LAST KNOWN UTC") and shown.find("#p-flight form button").get_attribute("aria-disabled") == "true"
    shown.server.start()
    shown.says("#conn", "Connected again at ")
    assert shown.text(".now").startswith("NOW UTC") and shown.find("#p-flight form button").get_attribute("aria-disabled") == "false"
    shown.server.post("TOBT,DLH1,2025-03-10T06:20Z", Cdm_Role="AO")
    shown.until("return document.querySelector('#next tr[data-flight=DLH1]').innerText.includes('06:20')")


def test_what_came_while_it_was_lost(page):
    shown = page().open()
    shown.allowed += ["ERR_INTERNET_DISCONNECTED", "ERR_NETWORK_IO_SUSPENDED", "ERR_FAILED"]
    offline = {"offline": True, "latency": 0, "downloadThroughput": -1, "uploadThroughput": -1}
    shown.driver.execute_cdp_cmd("Network.enable", {})
    shown.driver.execute_cdp_cmd("Network.emulateNetworkConditions", offline)
    shown.js("window.wasLost = document.documentElement.classList.contains('is-lost')")
    shown.server.post("TOBT,DLH1,2025-03-10T06:20Z", Cdm_Role="AO")
    shown.driver.execute_cdp_cmd("Network.emulateNetworkConditions", offline | {"offline": False})
    shown.until("return document.querySelector('#next tr[data-flight=DLH1]').innerText.includes('06:20')", seconds=30)


def test_two_tabs(page):
    shown = page().open()
    first = shown.tab("")
    shown.server.post("TOBT,DLH1,2025-03-10T06:20Z", Cdm_Role="AO")
    for handle in (shown.driver.current_window_handle, first):
        shown.driver.switch_to.window(handle)
        shown.until("return document.querySelector('#next tr[data-flight=DLH1]').innerText.includes('06:20')")
    second = next(handle for handle in shown.driver.window_handles if handle != first)
    shown.driver.switch_to.window(second)
    shown.close_tab(first)


def test_a_day_that_is_read_anew(page):
    """A record of more than 100 Rows is sent as `reset`: the rows are the day's again, and those that moved are marked."""
    many = [f"{letter}{number:03}" for letter in "XY" for number in range(60)]
    day = {"AP": [f"FLT,{name},5" for name in many], "ATC": [f"RWY,{name},27L" for name in many] + ["CLOCK,2025-03-10T05:50Z"],
           "AO": [f"TOBT,{name},2025-03-10T06:00Z" for name in many]}
    shown = page(day=day).open()
    assert shown.row("next", "X000")[0] == "06:00 in 10"
    shown.server.post("CLOSE,27L,2025-03-10T06:10Z,2025-03-10T06:40Z", Cdm_Role="ATC")
    shown.until("return document.querySelector('#all tr[data-flight=Y059]').textContent.includes('was')", seconds=2 * WAIT)
    plan = json.loads(shown.server.get("/v1/plan.json").body)
    told = {row["flight"]: row["tsat"][11:16] for row in plan["flights"]}
    assert told["X000"] == "06:25"
    shown.until("return document.querySelectorAll('#all tbody tr').length === 120")
    assert shown.js("return Object.fromEntries([...document.querySelectorAll('#all tbody tr')].map((r) => [r.dataset.flight, r.cells[0].textContent]))") == told


def test_the_rows_are_those_of_the_plan(page, chance):
    """After many records the page shows what the program's plan says, flight by flight."""
    shown = page().open()
    for _ in range(12):
        lines = []
        for _ in range(5):
            name, minute = chance.choice(["BAW3", "DLH1", "DLH2", "RYR6", "AFR4", "EZY7", "KLM5"]), chance.randrange(360, 480)
            lines.append(f"TOBT,{name},2025-03-10T{minute // 60:02}:{minute % 60:02}Z")
        shown.server.post(lines, Cdm_Role="AO")
    last = json.loads(shown.server.get("/health").body)["position"]
    plan = json.loads(shown.server.get("/v1/plan.json").body)
    at = lambda time: time[11:16] if time else "–"
    told = sorted([at(row["tsat"]), row["flight"], at(row["ttot"]), str(row["delay"]) if row["delay"] is not None else "–"] for row in plan["flights"])
    read = "return [...document.querySelectorAll('#all tbody tr')].map((r) => [0, 1, 8, 9].map((c) => r.cells[c].innerText.replace('late ', '').trim())).sort()"
    try:
        until(lambda: sorted(shown.js(read)) == told, WAIT)
    except AssertionError:
        assert sorted(shown.js(read)) == told, last
    first = [f"{plan[name]}" for name in ("placed", "late", "blocked", "delay", "max")]
    until(lambda: shown.texts("header dd") == first, WAIT)
    asked = [row["flight"] for row in json.loads("[" + ",".join(shown.server.get("/v1/next.json").body.decode().splitlines()) + "]")]
    until(lambda: shown.flights("next") == asked, WAIT)
    shown.until("return ![...document.querySelectorAll('#next .why span')].some((s) => s.innerText === '…')")


@pytest.mark.parametrize("name", ["light", "dark"])
def test_light_and_dark_by_hand(page, name):
    shown = page().open()
    while shown.js("return document.documentElement.dataset.theme ?? ''") != name:
        shown.click("#b-theme")
    light = shown.js("return getComputedStyle(document.body).backgroundColor") == "rgb(233, 237, 241)"
    assert light == (name == "light")
    shown.open()
    assert shown.js("return document.documentElement.dataset.theme") == name
