"""The page at its edges: long waits, many warnings, many runways, the second day, silence, an old log, a hostile picture. The day by hand is
in browser.py."""
import re
import signal

from browser import AIRPORT, DAY, WAIT, fill, size
from selenium_or_none import Keys


def at(time, day=10):
    return f"2025-03-{day}T{time}Z"


def test_a_wait_without_end(page):
    """From 06:10 on each second cell of 27L is closed, the others take nobody: 20 cells, then a closure to the end of the second day. So BAW3,
    ready for take-off at 06:15, waits in 20 stretches."""
    shown = page()
    cell = lambda number: (370 + number * 10) // 60 * 100 + (370 + number * 10) % 60
    hm = lambda number: f"{cell(number) // 100:02}:{cell(number) % 100:02}"
    lines = [f"{'CLOSE' if number % 2 else 'RATE'},27L,{at(hm(number))},{at(hm(number + 1))}{'' if number % 2 else ',0'}" for number in range(20)]
    fill(shown.server, {"ATC": lines + [f"CLOSE,27L,{at(hm(19))},{at('00:00', 12)}"]})
    shown.open("#BAW3")
    shown.says("#waits", "RATE")
    waits = shown.texts("#waits li")
    assert len(waits) == 13 and waits[:2] == ["R 06:15–06:19 RATE 0/0 5 min", "X 06:20–06:29 CLOSURE 10 min"] and waits[12] == "8 more, to 11 23:59"
    assert shown.text("#why-note") == "Blocked by RATE: no minute from 06:15 to 11 23:59 is free."
    assert shown.text("#wait-ends") == "06:15 TOBT + EXOT · 180 minutes are drawn"
    shown.click("#waits button")
    waits = shown.texts("#waits li")
    assert len(waits) == 20 and waits[19].startswith("X 09:20–11 23:59 CLOSURE")
    assert shown.js("return document.activeElement === document.querySelectorAll('#waits li')[12]")


def test_a_window_that_is_closed(page):
    """AFR4's window is 07:05 to 07:20, in which 09 is closed: the bar ends 30 minutes behind it."""
    shown = page()
    fill(shown.server, {"ATC": [f"CLOSE,09,{at('07:00')},{at('07:30')}"]})
    shown.open("#AFR4")
    shown.says("#waits", "CLOSURE")
    assert shown.texts("#waits li")[:2] == ["C 06:52–07:04 CTOT 13 min", "X 07:05–07:20 CLOSURE 16 min"]
    assert shown.texts("#waits li")[2] == "C from 07:21 on CTOT to the end"
    assert shown.text("#wait-ends") == "06:52 TOBT + EXOT · 59 minutes are drawn"


def test_each_reason_has_the_letter_of_the_picture(page):
    """S1 waits for de-icing; N1 could have gone; C1 waits for its window; X1 for the end of a closure; R1 for a place; P1 for the wake of R0."""
    airport = AIRPORT + "RUNWAY,18,10,9\nTAXI,*,18,10\nSPACE,18,M,3\n"
    names = ["S1", "N1", "C1", "X1", "R0", "R2", "R1", "P0", "P1"]
    day = {"AP": [f"FLT,{name},5" for name in names], "GH": ["ICE,S1,STAND,4"], "NM": [f"CTOT,C1,{at('09:00')}"],
           "ATC": ["RWY,S1,09", "RWY,N1,09", "RWY,C1,09", "RWY,X1,09", "RWY,R0,27L", "RWY,R2,27L", "RWY,R1,27L", "RWY,P0,18", "RWY,P1,18",
                   f"CLOSE,09,{at('10:00')},{at('10:20')}"],
           "AO": [f"TOBT,S1,{at('07:00')}", f"TOBT,N1,{at('05:45')}", f"TOBT,C1,{at('08:00')}", f"TOBT,X1,{at('09:55')}", f"TOBT,R0,{at('07:00')}",
                  f"TOBT,R2,{at('07:00')}", f"TOBT,R1,{at('07:00')}", f"TOBT,P0,{at('07:00')}", f"TOBT,P1,{at('07:01')}"]}
    shown = page(airport=airport, day=day)
    fill(shown.server, {"ATC": [f"CLOCK,{at('05:50')}"]})
    shown.open()
    letters = {"S1": "I", "N1": "N", "C1": "C", "X1": "X", "R2": "R", "P1": "S"}
    for name, letter in letters.items():
        shown.js("location.hash = arguments[0]", f"#{name}")
        shown.until("return document.querySelector('#h-f span').textContent === arguments[0] && document.querySelector('#waits li b') !== null", name)
        assert shown.text("#waits li b") == letter, name
    picture = shown.server.get("/v1/picture.svg").body.decode()
    drawn = set(re.findall(r"<text[^>]*class='lt'[^>]*>([INCXSR])</text>", picture))
    assert not drawn or drawn <= set(letters.values())


def test_of_many_warnings_each_has_its_flight(page):
    """Four have left, and are overdue; the runway of one of them is closed: it is seen which one that is."""
    names = ["A0", "A1", "A2", "A3"]
    shown = page(day={"AP": [f"FLT,{name},5" for name in names], "ATC": [f"RWY,{name},{'09' if name == 'A1' else '27L'}" for name in names]})
    fill(shown.server, {"ATC": [f"OFF,{name},{at('05:00')}" for name in names] + [f"CLOSE,09,{at('05:50')},{at('06:30')}", f"CLOCK,{at('06:00')}"]})
    shown.open()
    assert shown.texts("#warnings li")[0] == "OVERDUE 4 A0; A1 SHUT; A2; A3"


def test_many_warnings(page):
    """Of twelve that are overdue and of ten that are blocked eight are named, and how many more there are; a press shows them. What is to be acted on
    now is first."""
    out, held = [f"A{number:02}" for number in range(12)], [f"B{number:02}" for number in range(10)]
    day = {"AP": [f"FLT,{name},5" for name in out + held], "ATC": [f"RWY,{name},27L" for name in out + held],
           "AO": [f"TOBT,{name},{at('09:00')}" for name in held], "NM": [f"CTOT,{name},{at('07:00')}" for name in held]}
    shown = page(day=day)
    fill(shown.server, {"ATC": [f"OFF,{name},{at('05:00')}" for name in out] + [f"CLOCK,{at('06:00')}"]})
    shown.open()
    warnings = shown.texts("#warnings li")
    assert warnings[:2] == ["BLOCKED 10 " + " ".join(held[:8]) + " +2 more BLOCKED", "OVERDUE 12 " + " ".join(out[:8]) + " +4 more OVERDUE"]
    shown.click("#warnings .OVERDUE button")
    assert shown.texts("#warnings li")[1] == "OVERDUE 12 " + " ".join(out)
    assert shown.js("return document.activeElement.textContent") == "A00"
    shown.click("#warnings .BLOCKED button")
    shown.until("return location.search === '?status=blocked'")
    assert sorted(shown.flights("all")) == held


def test_a_new_warning_is_new_for_a_minute(page):
    shown = page().open()
    shown.server.post(f"CTOT,AFR4,{at('06:40')}", Cdm_Role="NM")
    shown.says("#warnings", "BLOCKED 2 of 3 new AFR4 EZY7", seconds=10 + WAIT)
    shown.says("#conn", "It made a new warning: BLOCKED AFR4.")
    # A minute passes, for the page.
    shown.js("const real = performance.now.bind(performance); performance.now = () => real() + 61000;")
    shown.until("return !document.querySelector('#warnings').innerText.includes('new')", seconds=15 + WAIT)


def test_eight_runways(page):
    """Two a row, and past four runways without the flights in their cells; a cell that takes more than six has its number alone."""
    names = ["09", "18", "25C", "25L", "25R", "27L", "27R", "36"]
    airport = "DAY,2025-03-10\n" + "".join(f"RUNWAY,{name},{length},{cap}\nTAXI,*,{name},15\n"
                                           for name, length, cap in zip(names, (10, 10, 1, 60, 10, 10, 5, 10), (2, 7, 1, 12, 0, 6, 3, 2)))
    shown = page(airport=airport, day={"AP": ["FLT,A1,5", "FLT,A2,5"], "ATC": ["RWY,A1,18", "RWY,A2,27L", f"CLOCK,{at('05:50')}"],
                                       "AO": [f"TOBT,{name},{at('06:00')}" for name in ("A1", "A2")]}).open()
    boxes = shown.js("return [...document.querySelectorAll('.band')].map((b) => b.getBoundingClientRect()).map((r) => [Math.round(r.left), Math.round(r.top)])")
    assert len(boxes) == 8 and len({left for left, _ in boxes}) == 2 and len({top for _, top in boxes}) == 4
    assert shown.texts(".band .names") == [] and shown.js("return document.documentElement.scrollWidth") <= 1280
    blocks = "const b = document.getElementById('rw-' + arguments[0]).parentElement;" \
        "return [...b.querySelectorAll('tbody td')].map((c) => [c.querySelector('.num').innerText, c.querySelectorAll('.st > *').length])"
    assert ["1/7", 0] in shown.js(blocks, "18") and ["1/6", 6] in shown.js(blocks, "27L")
    size(shown.driver, 320, 640)
    assert shown.js("return document.documentElement.scrollWidth") <= 320


def test_a_cell_over_its_cap_and_a_cell_partly_closed(page):
    """Three have left for the two places of 06:20 to 06:29; the first four minutes of 06:30 are closed."""
    names = ["A1", "A2", "A3"]
    shown = page(day={"AP": [f"FLT,{name},5" for name in names], "ATC": [f"RWY,{name},27L" for name in names]})
    fill(shown.server, {"ATC": [f"OFF,{name},{at('06:05')}" for name in names] + [f"CLOSE,27L,{at('06:30')},{at('06:34')}", f"CLOCK,{at('06:10')}"]})
    shown.open()
    cells = shown.js("""return [...document.querySelectorAll('#rw-27L + .scroll tbody tr:first-child td')].slice(0, 3)
        .map((c) => [c.className, c.innerText.replace(/\\s+/g, ' ').trim(), c.querySelectorAll('s').length])""")
    assert cells[0][0] == "at" and cells[1] == ["over", "3/2!", 1] and cells[2][:2] == ["shut", "0/2 , 4 min closed"]
    assert shown.text("#rw-27L") == "27L open, closes at or after 06:30 cells of 10 min"


def test_the_second_day(page):
    """At 23:50 of the first day: times of the second one have its date, shown and typed."""
    day = DAY | {"ATC": [line for line in DAY["ATC"] if not line.startswith("CLOCK")] + [f"CLOCK,{at('23:50')}"],
                 "AO": DAY["AO"] + [f"TOBT,BAW3,{at('00:12', 11)}"]}
    shown = page(day=day).open("#BAW3")
    shown.choose("#role", "AO")
    shown.says("#p-flight form", "Kind")
    assert shown.row("next", "BAW3")[0] == "11 00:12 in 22" and shown.texts("#p-flight .facts dd")[3] == "11 00:12"
    shown.until("return [...document.querySelectorAll('.band thead th')].some((h) => h.innerText === '11 00:00')")
    shown.server.post(f"TOBT,BAW3,{at('00:20', 11)}", Cdm_Role="AO")
    shown.says('#next tr[data-flight="BAW3"]', "11 00:20 ▼ was 11 00:12")
    for width in (320, 1280, 1900):
        size(shown.driver, width, 900)
        inside = "const c = document.querySelector('#next tr[data-flight=BAW3] .big'); const r = c.getBoundingClientRect();" \
            "return [...c.querySelectorAll('b, span')].every((e) => e.getBoundingClientRect().right <= r.right && e.getBoundingClientRect().bottom <= r.bottom + 1)"
        assert shown.js(inside), width
    size(shown.driver, 1280, 900)
    shown.type("#p-flight form [name=time]", "11 0030")
    assert shown.text("#p-flight form code") == f"TOBT,BAW3,{at('00:30', 11)}"
    shown.type("#p-flight form [name=time]", "23:55")
    assert shown.text("#p-flight form code") == f"TOBT,BAW3,{at('23:55')}"


def test_times_are_utc_wherever_the_screen_is(page):
    shown = page()
    shown.driver.execute_cdp_cmd("Emulation.setTimezoneOverride", {"timezoneId": "America/New_York"})
    try:
        shown.open("#RYR6")
        shown.says("#waits", "CLOSURE")
        assert shown.js("return new Date('2025-03-10T12:00Z').getHours()") == 8
        assert shown.text(".now") == "NOW UTC 05:50" and shown.row("next", "DLH2")[0] == "06:05 in 15" and shown.text("#date") == "Mon 10 Mar 2025"
        assert shown.texts("#waits li") == ["X 06:22–06:49 CLOSURE 28 min"]
        record = shown.server.records()[-1]
        shown.says("#conn", f"Connected Record {record['position']} at {record['at'][11:19]}")
    finally:
        shown.driver.execute_cdp_cmd("Emulation.setTimezoneOverride", {"timezoneId": ""})


def test_silence_is_a_lost_connection(page):
    """A server that says nothing for 20 seconds, though the connection stands; it says something each 15."""
    shown = page().open()
    shown.until("return document.querySelector('#operators option') !== null")
    shown.allowed += ["503 (Service Unavailable)", "504 (Gateway Timeout)"]
    shown.server.process.send_signal(signal.SIGSTOP)
    try:
        shown.says("#conn", "CONNECTION LOST since ", seconds=21 + WAIT)
        assert shown.text(".now").startswith("LAST KNOWN UTC")
        struck = shown.js("return [getComputedStyle(document.querySelector('.now time')).textDecorationLine, getComputedStyle(document.querySelector('.in')).visibility]")
        assert struck == ["line-through", "hidden"]
    finally:
        shown.server.process.send_signal(signal.SIGCONT)
    shown.says("#conn", "Connected again at ", seconds=2 * WAIT)


def test_a_record_without_a_reply_is_sent_again(page):
    """The reply breaks off on its way: the page doesn't know whether the record was taken, says so, and sends it again with the same key."""
    shown = page().open("#DLH2")
    shown.choose("#role", "AO")
    shown.says("#p-flight form", "Kind")
    before = len(shown.server.records())
    shown.js("""const real = fetch; let broken = 0; window.fetch = async (path, ...words) => {
        const got = await real(path, ...words);
        if (path === '/v1/records' && !broken++) throw new TypeError('broken');
        return got; };""")
    shown.type("#p-flight form [name=time]", "06:30")
    shown.click("#p-flight form button")
    shown.says("#p-flight .reply", "No reply. It isn’t known whether the record was taken. Send it again: it is taken once.")
    shown.click("#p-flight form button")
    shown.says("#p-flight .reply", "Accepted.")
    assert [record["line"] for record in shown.server.records()[before:]] == [f"TOBT,DLH2,{at('06:30')}"]


def test_an_answer_that_comes_before_its_event(page):
    """Events come together, so an answer of the program may be newer than the rows: nothing of it is lost when they follow. No view is sent,
    so the page asks; its question waits for the record, and the record's event for the answer."""
    shown = page().open("#KLM5")
    shown.choose("#role", "AO")
    shown.says("#p-flight form", "Kind")
    shown.js("""let taken, had; const [isTaken, isHad] = [new Promise((go) => { taken = go; }), new Promise((go) => { had = go; })];
        const real = window.fetch; window.fetch = async (path, options) => {
          if (path === '/v1/next.json') await isTaken;
          const got = await real(path, options); const text = got.text.bind(got);
          if (options?.method === 'POST' && path === '/v1/records') taken();
          if (path === '/v1/next.json') got.text = async () => { const all = await text(); setTimeout(had, 500); return all; };
          return got; };
        const read = ReadableStreamDefaultReader.prototype.read;
        ReadableStreamDefaultReader.prototype.read = async function (...words) {
          const { value, done } = await read.apply(this, words);
          if (value?.includes('TOBT,KLM5')) { window.wasHeld = true; await isHad; }
          return { value: value?.replaceAll('event: view', 'event: other'), done }; };""")
    # The read that waits already is the browser's own; the next one is this.
    for stand in ("B1", "B2"):
        shown.server.post(f"STAND,BAW3,{stand}", Cdm_Role="AP")
        shown.says("#next", stand)
    # Behind BAW3 and DLH1 it takes the second place of the cell in which DLH2 takes off.
    shown.type("#p-flight form [name=time]", "06:00")
    shown.click("#p-flight form button")
    shown.says("#p-flight .reply", "Accepted.")
    shown.says("#next", "KLM5", seconds=5 + WAIT)
    assert shown.js("return window.wasHeld")
    assert shown.row("next", "KLM5")[0].startswith("06:05 ") and shown.row("next", "KLM5")[9].startswith("rate")
    assert "…" not in shown.text("#next tbody")


def test_a_log_that_is_not_reached(page):
    """What the server says of a database that is away, at whatever it answers."""
    shown = page().open()
    shown.js("""const real = fetch; window.fetch = async (...words) => {
        const got = await real(...words); const headers = new Headers(got.headers); headers.set('Cdm-Stale-Since', '2025-03-10T05:49:12.000Z');
        const body = words[0] === '/health' ? JSON.stringify({...await got.json(), stale_since: '2025-03-10T05:49:12.000Z'}) : got.body;
        return new Response(body, {status: got.status, headers}); };""")
    shown.server.post(f"TOBT,DLH1,{at('06:20')}", Cdm_Role="AO")
    shown.says("#stale", "The log isn’t reached since 05:49:12 UTC: what is shown may be old, and nothing can be sent.", seconds=20 + WAIT)


def test_what_is_asked_again_is_asked_once_a_second(page):
    """After a flood of records: totals, warnings, loads and the next start-ups at most once a second, and each of the last record."""
    shown = page().open()
    began = shown.js("performance.clearResourceTimings(); return performance.now()")
    for minute in range(10, 50):
        shown.server.post(f"TOBT,DLH1,2025-03-10T06:{minute}Z", Cdm_Role="AO")
    shown.says("#conn", "06:49", seconds=10 + WAIT)
    shown.until("return document.querySelector('#next tr[data-flight=DLH1]').innerText.includes('06:49')")
    count = "return performance.getEntriesByType('resource').filter((e) => e.name.endsWith(arguments[0])).length"
    for name in ("next.json", "compare", "warnings.json", "load.json"):
        seconds = (shown.js("return performance.now()") - began) / 1000
        assert shown.js(count, name) <= seconds + 1, name  # none where the events bring it
    assert shown.js(count, "plan.json") == 0


def test_the_picture(page):
    """Behind a link, between the runways and the tables, and asked for at most every ten seconds."""
    shown = page().open()
    shown.click("#b-picture")
    shown.until("return document.querySelector('#drawn').shadowRoot?.querySelector('svg') != null")
    assert shown.js("return document.activeElement.id") == "h-p" and shown.text("#h-p").startswith("Picture the day at record ")
    assert shown.js("return document.querySelector('#drawn').shadowRoot.querySelector('svg').getAttribute('aria-label')") == "The day, as timelines"
    top = shown.js("return document.querySelector('#picture').getBoundingClientRect().top")
    assert shown.js("return document.querySelector('#runways').getBoundingClientRect().bottom") <= top < 900
    shown.click("#b-picture")
    shown.says("#picture .fault", "A picture can be drawn again in ")
    assert shown.js("return performance.getEntriesByType('resource').filter((e) => e.name.endsWith('picture.svg')).length") == 1
    shown.keys(Keys.ESCAPE)
    assert not shown.find("#picture").is_displayed() and shown.js("return document.activeElement.id") == "b-picture"


def test_a_picture_with_live_parts(page):
    """If a picture ever had them, nothing of them would be taken over, asked for or run."""
    shown = page().open()
    shown.js("""const real = fetch; window.fetch = async (path, ...words) => path !== '/v1/picture.svg' ? real(path, ...words) : new Response(
        `<svg xmlns='http://www.w3.org/2000/svg' xmlns:xlink='http://www.w3.org/1999/xlink' onload='window.hit=1' width='10' height='10'>
        <script>window.hit=1</script><a href='javascript:window.hit=1'><text>x</text></a><image href='https://example.com/a.png'/>
        <foreignObject><body xmlns='http://www.w3.org/1999/xhtml'><img src='x' onerror='window.hit=1'/></body></foreignObject>
        <set attributeName='onload' to='window.hit=1'/><use href='https://example.com/a.svg#b'/><animate onbegin='window.hit=1'/>
        <rect class='to' onclick='window.hit=1' style='fill:url(https://example.com/c)' fill='url(https://example.com/d)' width='3' height='3'/>
        <text id='t'>&lt;img src=x onerror=window.hit=1&gt;</text></svg>`, {headers: {'Cdm-Position': '1'}});""")
    shown.allowed += ["Content Security Policy", "violates the following"]
    shown.click("#b-picture")
    shown.until("return document.querySelector('#drawn').shadowRoot?.querySelector('#t') != null")
    made = shown.js("""return [...document.querySelector('#drawn').shadowRoot.querySelectorAll('*')]
        .map((e) => [e.localName, [...e.attributes].map((a) => a.name).join(' ')])""")
    assert made == [["svg", "width height role aria-label"], ["rect", "class width height"], ["text", "id"]]
    assert shown.js("return window.hit ?? null") is None
    assert shown.js("return document.querySelector('#drawn').shadowRoot.querySelector('#t').textContent") == "<img src=x onerror=window.hit=1>"


def test_a_what_if_moves_the_tables_once(page):
    """The second row of the bands has its place from the panel's opening on; what the comparison says fills it."""
    shown = page().open()
    top = "return Math.round(document.querySelector('#next').getBoundingClientRect().top)"
    before = shown.js(top)
    shown.click("#b-what-if")
    shown.says("#rw-09 + .scroll .wi", "–")
    opened = shown.js(top)
    assert opened > before
    shown.js("document.querySelector('#scenario').value = 'SCENARIO,OPEN-0630\\nOPEN,09,2025-03-10T06:30Z,2025-03-10T06:50Z'")
    shown.click("#p-what-if form button")
    shown.says("#rw-09 + .scroll .wi", "RYR6*")
    assert shown.js(top) == opened
    shown.keys(Keys.ESCAPE)
    assert shown.js(top) == before


def test_an_open_flight_moves_no_table(page):
    boxes = "return ['#next', '#all', '#runways'].map((s) => document.querySelector(s).getBoundingClientRect()).map((r) => [r.left, r.top + scrollY, r.width, r.height])"
    shown = page()
    for width in (1280, 3840):
        size(shown.driver, width, 900)
        shown.open()
        before = shown.js(boxes)
        shown.click('#next tr[data-flight="RYR6"] a')
        shown.says("#waits", "CLOSURE")
        assert shown.js(boxes) == before, width
        assert shown.js("return [...document.querySelectorAll('tr.open')].map((r) => r.dataset.flight)") == ["RYR6", "RYR6"]


def test_groups_by_status_and_what_is_due_now(page):
    """BAW3 left its stand, RYR6 is airborne, AFR4 is cancelled; at 06:05 DLH1 is due."""
    shown = page()
    fill(shown.server, {"ATC": [f"OFF,BAW3,{at('05:50')}", f"OFF,RYR6,{at('05:40')}", f"AIR,RYR6,{at('05:50')}", f"CLOCK,{at('06:05')}"], "AO": ["CNL,AFR4"]})
    shown.open()
    assert shown.texts("#all summary") == ["Blocked 2", "Planned 2", "Off-block 1", "Airborne 1", "Cancelled 1"]
    assert [shown.row("all", name)[2] for name in ("EZY7", "DLH1", "BAW3", "RYR6", "AFR4")] == ["blocked CTOT", "planned", "off-block", "airborne", "cancelled"]
    assert shown.row("next", "DLH1")[0] == "06:05 now" and shown.row("all", "AFR4")[0] == "–"
