"""The page for the eye, and what misled it: text that is spaced or enlarged, zoom on a wall, what is said at once, names of tables, the one table
of columns, and what the strip of warnings says. The day by hand is in browser.py."""
import json

import pytest
from browser import WAIT, fill, size, until
from conftest import ROOT
from test_page_access import tree

# What a reader may set: WCAG 1.4.12.
SPACED = """const sheet = new CSSStyleSheet();
sheet.replaceSync('* { line-height: 1.5 !important; letter-spacing: .12em !important; word-spacing: .16em !important } p { margin-bottom: 2em !important }');
document.adoptedStyleSheets = [sheet];"""
LARGE = "document.documentElement.style.fontSize = '200%'"
BOTH = f"{SPACED}\n{LARGE}"
# Texts that a box hides, that run out of their cell, or that are outside of the window.
CLIPPED = r"""
const seen = (node) => node.checkVisibility({checkVisibilityCSS: true, checkOpacity: true}) && !node.closest('.vh, .skip, .probe, [inert], thead');
const bad = [];
for (const node of document.querySelectorAll('body *')) {
  if (!seen(node) || node.closest('svg, textarea, select, option') || !node.innerText?.trim()) continue;
  const style = getComputedStyle(node), hides = (value) => value === 'hidden' || value === 'clip';
  const wide = node.clientWidth > 0 && node.scrollWidth > node.clientWidth + 1, high = node.clientHeight > 0 && node.scrollHeight > node.clientHeight + 1;
  const isText = /^(TD|TH|DD|DT|BUTTON|LI|SUMMARY|LABEL|H1|H2|H3|P)$/.test(node.tagName) && style.overflowX === 'visible';
  if (hides(style.overflowX) && wide || hides(style.overflowY) && high || isText && wide)
    bad.push(`${node.tagName}.${node.className} ${node.scrollWidth}/${node.clientWidth} ${node.scrollHeight}/${node.clientHeight} ${node.innerText.slice(0, 30)}`);
}
const walker = document.createTreeWalker(document.body, NodeFilter.SHOW_TEXT);
while (walker.nextNode()) {
  const parent = walker.currentNode.parentElement;
  if (!walker.currentNode.data.trim() || !seen(parent) || parent.closest('.scroll, template, svg, option, textarea')) continue;
  const range = document.createRange();
  range.selectNodeContents(walker.currentNode);
  for (const box of range.getClientRects()) if (box.width > 0 && (box.right > innerWidth + 1 || box.left < -1)) bad.push(`outside: ${walker.currentNode.data.trim()}`);
}
return [...new Set(bad)];
"""
# Times, runways and names that are broken in two lines.
BROKEN = r"""
const bad = [];
const walker = document.createTreeWalker(document.body, NodeFilter.SHOW_TEXT);
while (walker.nextNode()) {
  const parent = walker.currentNode.parentElement;
  if (!/^(\d\d:\d\d|[A-Z0-9]{2,7})$/.test(walker.currentNode.data.trim()) || !parent.checkVisibility() || parent.closest('.vh, .probe, svg, option')) continue;
  const range = document.createRange();
  range.selectNodeContents(walker.currentNode);
  if (new Set([...range.getClientRects()].map((box) => Math.round(box.top))).size > 1) bad.push(walker.currentNode.data);
}
return bad;
"""


def at(time):
    return f"2025-03-10T{time}Z"


@pytest.mark.parametrize("width", [320, 1280])
@pytest.mark.parametrize("how", [SPACED, LARGE, BOTH], ids=["spacing", "size", "both"])
def test_text_that_is_spaced_or_enlarged(page, width, how):
    """Nothing is cut off, whatever the reader sets; with spacing alone no time, runway or name is broken either."""
    shown = page()
    size(shown.driver, width, 900)
    shown.open()
    shown.choose("#role", "ATC")
    shown.until("return document.querySelector('#b-send').hidden === false")
    shown.server.post(f"TOBT,DLH1,{at('06:20')}", Cdm_Role="AO")
    shown.says('#next tr[data-flight="DLH2"]', "06:00")
    shown.js(how)
    for path in ("", "#RYR6", "#EZY7", "#what-if", "#send"):
        shown.js("location.hash = arguments[0]", path)
        shown.until("return [...document.querySelectorAll('.panel')].filter((p) => !p.hidden).length === (arguments[0] ? 1 : 0)", path)
        if path in ("#RYR6", "#EZY7"):
            shown.until("return document.querySelectorAll('#waits li').length > 0 && document.querySelector('#h-f span').textContent === arguments[0].slice(1)", path)
        shown.until("return document.documentElement.classList.contains('l-spaced') || arguments[0]", how == LARGE)
        assert shown.js(CLIPPED) == [], path
        if how == SPACED:
            assert shown.js(BROKEN) == [], path


@pytest.mark.parametrize("width", [320, 360])
def test_no_time_is_broken_in_two(page, width):
    shown = page()
    size(shown.driver, width, 900)
    shown.open()
    assert shown.js(BROKEN) == [] and shown.js(CLIPPED) == []
    shown.js(SPACED)
    shown.until("return document.documentElement.classList.contains('l-spaced')")
    assert shown.js(BROKEN) == []


def test_zoom_enlarges_a_wall(page):
    """A window of 3,840 px that is zoomed to 200 and 300 % has 1,920 and 1,280 px of its own; its outer width stays. The text is as many times larger."""
    shown = page()
    driver = shown.driver
    script = driver.execute_cdp_cmd("Page.addScriptToEvaluateOnNewDocument",
                                    {"source": "Object.defineProperty(window, 'outerWidth', {configurable: true, get: () => 3840});"})
    root = "return parseFloat(getComputedStyle(document.documentElement).fontSize) * arguments[0]"
    try:
        for zoom, layout in ((1, "l-wall"), (2, "l-narrow"), (3, "l-phone")):
            size(driver, 3840 // zoom, 2160 // zoom, zoom)
            shown.open()
            assert shown.js(root, zoom) == 32 * zoom, zoom
            assert shown.js("return document.documentElement.classList.contains(arguments[0])", layout), zoom
            assert shown.js("return document.documentElement.scrollWidth") <= 3840 // zoom and shown.js(CLIPPED) == [], zoom
    finally:
        driver.execute_cdp_cmd("Page.removeScriptToEvaluateOnNewDocument", {"identifier": script["identifier"]})
    # A screen of small pixels isn't zoomed.
    size(driver, 1920, 1080, 2)
    shown.open()
    assert shown.js(root, 1) == 16


def test_a_lost_connection_is_an_alert(page):
    """It is said at once, whatever a screen reader is saying; all else waits until it has ended."""
    shown = page().open()
    regions = "return [...document.querySelectorAll('[role=status], [role=alert]')].map((e) => [e.role, e.textContent])"
    assert [(role, text != "") for role, text in shown.js(regions)] == [("status", True), ("alert", False)]
    assert {role for role, _ in tree(shown)} >= {"status", "alert"}
    shown.allowed += ["ERR_CONNECTION_REFUSED", "ERR_INCOMPLETE_CHUNKED_ENCODING", "ERR_CONNECTION_RESET", "ERR_EMPTY_RESPONSE"]
    shown.server.kill()
    shown.says("#conn", "CONNECTION LOST since ")
    (_, status), (_, alert) = shown.js(regions)
    assert status == "" and alert.startswith("CONNECTION LOST since ")
    shown.server.start()
    shown.says("#conn", "Connected")
    (_, status), (_, alert) = shown.js(regions)
    assert status.startswith("Connected") and alert == ""


def test_toggles_say_whether_they_are_pressed(page):
    shown = page().open()
    pressed = "return document.querySelector('#b-theme').getAttribute('aria-pressed')"
    for _ in range(2):
        was = shown.js(pressed)
        shown.click("#b-theme")
        assert {was, shown.js(pressed)} == {"true", "false"}
        dark = shown.js("return getComputedStyle(document.body).backgroundColor") == "rgb(14, 18, 22)"
        assert shown.js(pressed) == str(dark).lower() and shown.text("#b-theme") == "Dark"
    shown.click("#b-what-if")
    shown.js("document.querySelector('#scenario').value = 'SCENARIO,ONE\\nTOBT,DLH1,2025-03-10T06:20Z\\nSCENARIO,TWO\\nTOBT,DLH2,2025-03-10T06:20Z'")
    shown.click("#p-what-if form button")
    shown.says("#wi-table", "difference")
    chosen = "return [...document.querySelectorAll('#wi-table button')].map((b) => [b.textContent, b.getAttribute('aria-pressed')]).sort()"
    assert shown.js(chosen) == [["ONE", "true"], ["TWO", "false"]]
    shown.js("[...document.querySelectorAll('#wi-table button')].find((b) => b.textContent === 'TWO').click()")
    shown.until(f"return JSON.stringify((() => {{ {chosen} }})()) === '[[\"ONE\",\"false\"],[\"TWO\",\"true\"]]'")


def names_of(shown, *roles):
    return [(role, name) for role, name in tree(shown) if role in roles]


def test_each_table_has_its_own_name(page):
    """Tables and landmarks, also those of a long list that is in parts."""
    shown = page().open()
    shown.choose("#role", "ATC")
    shown.until("return document.querySelector('#b-send').hidden === false")
    for path in ("", "#RYR6", "#what-if", "#send"):
        shown.js("location.hash = arguments[0]", path)
        shown.until("return [...document.querySelectorAll('.panel')].filter((p) => !p.hidden).length === (arguments[0] ? 1 : 0)", path)
        names = names_of(shown, "table", "region", "form", "complementary", "navigation", "search")
        assert len({name for _, name in names}) == len(names), (path, names)
    assert ("table", "All flights, planned") in names and ("table", "Next start-ups, by TSAT") in names


def test_each_part_of_a_long_list_has_its_own_name(page):
    names = [f"X{number:03}" for number in range(450)]
    shown = page(day={"AP": [f"FLT,{name},5" for name in names], "ATC": [f"RWY,{name},27L" for name in names]}).open()
    shown.until("return document.querySelectorAll('#all tbody tr').length === 450")
    read = "return [...document.querySelectorAll('#all [data-status=BLOCKED] table')].map((t) => t.getAttribute('aria-label'))"
    parts = shown.js("return document.querySelectorAll('#all [data-status=BLOCKED] .chunk').length")
    assert parts >= 3 and shown.js(read) == [f"All flights, blocked, part {number} of {parts}" for number in range(1, parts + 1)]
    # Those that are left when others go.
    fill(shown.server, {"AO": [f"CNL,{name}" for name in names[50:]]})
    shown.until("return document.querySelectorAll('#all [data-status=BLOCKED] tbody tr').length === 50", seconds=3 * WAIT)
    assert shown.js(read) == ["All flights, blocked"]


def test_records_left_follow(page):
    shown = page().open()
    shown.choose("#role", "ATC")
    shown.says("#desk-left", "records left")
    left = lambda: int(shown.text("#desk-left").split()[0].replace(",", ""))
    before = left()
    shown.click("#b-send")
    shown.choose("#p-send [name=kind]", "PRIO")
    shown.type("#p-send [name=flight]", "DLH2")
    shown.type("#p-send [name=priority]", "4")
    shown.click("#p-send form button")
    shown.says("#p-send .reply", "Accepted.")
    shown.until("return document.querySelector('#desk-left').textContent.startsWith(arguments[0])", f"{before - 1:,}")
    # One that is refused is a record of the log as well.
    shown.type("#p-send [name=flight]", "XX9")
    shown.click("#p-send form button")
    shown.says("#p-send .reply", "Refused,")
    shown.until("return document.querySelector('#desk-left').textContent.startsWith(arguments[0])", f"{before - 2:,}")


LABELS = {"#next": ["TSAT", "Flight", "Rwy", "Stand", "TOBT", "EXOT", "CTOT", "TTOT", "Delay", "Waits for, moved by"],
          "#all [data-status=PLANNED]": ["TSAT", "Flight", "Status", "Rwy", "Stand", "TOBT", "EXOT", "CTOT", "TTOT", "Delay"],
          "#all [data-status=BLOCKED]": ["TSAT", "Flight", "Status", "Rwy", "Stand", "TOBT", "EXOT", "CTOT", "TTOT", "Delay"],
          "#blocked": ["Flight", "Rule", "Rwy", "TOBT", "CTOT"]}


def test_one_table_of_columns(page):
    """A label that is changed in it is changed in every head; the page's file has none of them."""
    shown = page().open("#RYR6")
    heads = "return [...document.querySelectorAll(arguments[0] + ' thead th')].map((h) => h.textContent)"
    for selector, labels in LABELS.items():
        assert shown.js(heads, selector) == labels
    assert shown.js("return [...document.querySelectorAll('#p-flight .facts dt')].map((t) => t.textContent)") == [
        "TOBT", "EXOT", "CTOT", "TSAT", "TTOT", "Delay"]
    assert shown.driver.execute_async_script("""const done = arguments[0];
        (async () => {
          const {COLUMNS, STATUSES} = await import(document.querySelector('script[type=module]').src.replace('main.js', 'columns.js'));
          const {Table} = await import(document.querySelector('script[type=module]').src.replace('main.js', 'columns.js'));
          COLUMNS.stand.label = 'Box'; COLUMNS.tobt.print = () => 'then';
          const {write} = await import(document.querySelector('script[type=module]').src.replace('main.js', 'columns.js'));
          const table = new Table('all', 'x'), item = table.make('A1');
          write(item, {tobt: 1, stand: 'S'}, '');
          done([[...table.root.querySelectorAll('th')].map((h) => h.textContent).includes('Box'), item.cells.tobt.textContent, Object.values(STATUSES).map((s) => s.word)]);
        })();""") == [True, "then", ["blocked", "planned", "off-block", "airborne", "cancelled"]]
    text = (ROOT / "board/page/index.html").read_text()
    assert "<th scope=\"col\">TSAT" not in text and "off-block" not in text and "airborne" not in text
    assert shown.js("return [...document.querySelectorAll('#filter [name=status] option')].map((o) => o.textContent)") == [
        "all", "blocked", "planned", "off-block", "airborne", "cancelled"]


def test_rows_are_compared_by_all_their_members(page):
    """Also by one that no table of this page has."""
    shown = page().open()
    assert shown.driver.execute_async_script("""const done = arguments[0];
        (async () => {
          const {Day} = await import(document.querySelector('script[type=module]').src.replace('main.js', 'day.js'));
          const day = new Day(), plan = (...flights) => ({day: '2025-03-10', now: '2025-03-10T06:00Z', flights});
          day.take(plan({flight: 'A', tsat: 1, gate: 'G1'}, {flight: 'B', tsat: 1}, {flight: 'C', list: [1]}), 1, 'x-1');
          done([...day.take(plan({flight: 'A', tsat: 1, gate: 'G2'}, {flight: 'B', tsat: 1}, {flight: 'C', list: [1]}, {flight: 'D'}), 2, 'x-2').keys()]);
        })();""") == ["A", "D"]


def test_a_warning_of_an_unknown_kind_is_drawn(page):
    """A later program may have more kinds than this page knows."""
    shown = page()
    server, later = shown.server, shown.server.folder / "later"
    one = {"kind": "STRANGE", "flight": "BAW3", "runway": None, "time": at("06:00"), "ctot": None, "ttot": None, "rule": None, "placed": None, "cap": None}
    server.program(f"if [ \"$1\" = warnings ] && [ -e {later} ]; then $PROGRAM \"$@\"; echo '{json.dumps(one)}'; exit 0; fi")
    server.end()
    server.start()
    shown.open()
    later.touch()
    server.post("STAND,BAW3,B1", Cdm_Role="AP")
    shown.says("#warnings", "STRANGE new BAW3 06:00")
    assert shown.text("#h-w") == "Warnings 2"
    shown.click('#warnings .other a[href="#BAW3"]')
    shown.says("#f-warnings", "STRANGE The program warns of STRANGE.")


def test_the_strip_is_as_new_as_the_rest(page):
    """The program's answer is drawn as it comes, also where it is the second within seconds and nothing of it is filled."""
    shown = page().open()
    assert shown.driver.execute_async_script("""const done = arguments[0];
        (async () => {
          const {Warnings} = await import(document.querySelector('script[type=module]').src.replace('main.js', 'warnings.js'));
          const strip = new Warnings({date: '2025-03-10', rows: new Map()}, null), said = () => document.querySelector('#warnings ul').textContent;
          const one = {kind: 'PAST', flight: 'A1', time: '2025-03-10T06:00Z'};
          strip.take([]); const first = said().includes('A1');
          strip.take([one]); const second = said().includes('A1');
          strip.take([]);
          done([first, second, said().includes('A1')]);
        })();""") == [False, True, False]


def test_a_press_in_the_strip_is_never_lost(page):
    """The strip isn't drawn anew under a finger: the link that was pressed is the one that is let go."""
    shown = page().open()
    shown.js("window.link = document.querySelector('#warnings a[href=\"#EZY7\"]'); link.dispatchEvent(new PointerEvent('pointerdown', {bubbles: true}))")
    shown.server.post(f"CTOT,AFR4,{at('06:40')}", Cdm_Role="NM")
    shown.says("#blocked", "KLM5")
    shown.until("return document.querySelector('header .blk dd').textContent === '3'")
    shown.says("#conn", "ew warning: BLOCKED AFR4.")
    assert shown.js("return link.isConnected")
    shown.js("link.dispatchEvent(new PointerEvent('pointerup', {bubbles: true})); link.click()")
    assert shown.js("return location.hash") == "#EZY7"
    shown.says("#warnings", "BLOCKED 2 of 3 new AFR4 EZY7")


def test_a_warning_of_a_flight_that_has_left(page):
    """A2 left at 06:05 with a CTOT of 06:20, and it is 06:40: its panel says what its warnings mean and what to send, and offers just that."""
    shown = page(day={"AP": ["FLT,A2,5"], "ATC": ["RWY,A2,27L"], "NM": [f"CTOT,A2,{at('06:20')}"]})
    fill(shown.server, {"ATC": [f"OFF,A2,{at('06:05')}", f"CLOCK,{at('06:40')}"]})
    shown.open()
    shown.click('#warnings .OVERDUE a')
    shown.says("#f-warnings", "MISSED")
    words = shown.texts("#f-warnings li")
    assert words[0].startswith("OVERDUE It left its stand, its TTOT 06:20 is more than 5 minutes ago, and no AIR has come. Ask the tower where it is. Once it has taken off, the tower sends AIR.")
    assert words[1].startswith("MISSED It left its stand, and takes off after the window of its CTOT 06:20.")
    shown.says("#why-note", "It left its stand, and keeps its times. Of its records AIR alone is still taken.")
    shown.choose("#role", "ATC")
    shown.says("#p-flight form", "Kind")
    assert shown.js("return [...document.querySelectorAll('#p-flight form [name=kind] option')].map((o) => o.value)") == ["AIR"]
    shown.click("#f-warnings button")
    shown.type("#p-flight form [name=time]", "06:21")
    shown.click("#p-flight form button")
    shown.until("return document.querySelector('#h-f').innerText.includes('airborne')")
    shown.until("return document.querySelector('#f-warnings').hidden")


def test_an_airborne_flight_offers_no_record(page):
    """Of a flight that is airborne or cancelled no record is taken; of one that is off-block AIR alone."""
    shown = page()
    fill(shown.server, {"ATC": [f"OFF,BAW3,{at('05:50')}", f"OFF,RYR6,{at('05:40')}", f"AIR,RYR6,{at('05:50')}"], "AO": ["CNL,AFR4"]})
    shown.open()
    shown.choose("#role", "AO")
    shown.until("return document.querySelector('#b-send').hidden === false")
    kinds = "return document.querySelector('#f-send').hidden ? null : [...document.querySelectorAll('#p-flight form [name=kind] option')].map((o) => o.value)"
    for name, words in (("RYR6", "It is airborne. No record of it is taken any more."), ("AFR4", "It is cancelled. No record of it is taken any more."),
                        ("BAW3", "It left its stand, and keeps its times. Of its records AIR alone is still taken.")):
        shown.js("location.hash = arguments[0]", f"#{name}")
        shown.says("#why-note", words)
        assert shown.js(kinds) is None, name
    shown.js("location.hash = '#DLH1'")
    shown.until("return document.querySelector('#f-send').hidden === false")
    assert shown.js(kinds) == ["TOBT", "CNL"]


def test_a_form_in_use_offers_what_is_taken_now(page):
    """Its reply is still there when the flight has left its stand; of the flight's records AIR alone is offered then, and later none."""
    shown = page().open("#BAW3")
    # The effect of a form may be asked for when its record is taken already.
    shown.allowed.append("422 (Unprocessable Entity)")
    shown.choose("#role", "ATC")
    shown.says("#p-flight form", "Kind")
    kinds = "return [...document.querySelectorAll('#p-flight form [name=kind] option')].map((o) => o.value)"
    assert "OFF" in shown.js(kinds) and "AIR" not in shown.js(kinds)
    for kind, time, left in (("OFF", "05:40", ["AIR"]), ("AIR", "05:50", [])):
        shown.choose("#p-flight form [name=kind]", kind)
        shown.type("#p-flight form [name=time]", time)
        shown.click("#p-flight form button")
        shown.says("#h-f", {"OFF": "off-block", "AIR": "airborne"}[kind])
        until(lambda: shown.js(kinds) == left)
        shown.says("#conn", f"{kind} BAW3 {time}")
        if left:
            shown.says("#p-flight .reply", "Accepted.")
            assert shown.text("#p-flight form code").startswith("AIR,BAW3,")
    assert not shown.find("#f-send").is_displayed()


def test_how_many_are_blocked(page):
    """The program warns of those alone that have a TOBT or a CTOT; the strip says of how many."""
    shown = page().open()
    assert shown.texts("header .blk dd") == ["2"] and shown.texts("#warnings li")[0] == "BLOCKED 1 of 2 EZY7 with a TOBT or CTOT"


def test_several_operators(page):
    shown = page().open("?op=DLH,BAW")
    assert sorted(shown.flights("all")) == ["BAW3", "DLH1", "DLH2"]
    assert shown.text("#filtered span") == "Filter: operator DLH or BAW. 3 of 7 flights: 3 placed, 0 late, 0 blocked, 5 minutes of delay, 5 at most. The line above and the runways show all."
    shown.type("#filter [name=op]", "ezy, klm")
    assert sorted(shown.flights("all")) == ["EZY7", "KLM5"]


def test_nothing_is_said_before_it_is_known(page):
    """No zero and nothing red until the plan has come, but places for the rows, which go when it has."""
    shown = page()
    driver = shown.driver
    script = driver.execute_cdp_cmd("Page.addScriptToEvaluateOnNewDocument", {"source": """const real = window.fetch;
        window.fetch = (path, ...words) => (/^[/]v1[/](plan|warn|load)/.test(path) ? new Promise(() => {}) : real(path, ...words));"""})
    try:
        shown.open(ready=False)
        shown.until("return document.querySelector('#next thead') !== null")
        text = shown.text("body")
        assert " 0 " not in f" {text} " and shown.texts("header dd") == ["–"] * 5 and shown.text("#h-b").startswith("Blocked …")
        assert shown.js("return getComputedStyle(document.querySelector('#blocked')).borderLeftColor") != shown.js(
            "const e = document.createElement('i'); e.style.color = 'var(--alarm)'; document.body.append(e); return getComputedStyle(e).color")
        heads = "return [...document.querySelectorAll('thead')].filter((one) => one.checkVisibility({checkVisibilityCSS: true}) && !one.parentNode.tBodies[0].rows.length).length"
        assert shown.js(heads) == 0
        # The runways' place is there, so both columns begin together, and nothing jumps when they come.
        box = shown.js("const { top, height } = document.querySelector('#runways').getBoundingClientRect(); return [top, height >= 100]")
        assert box == [shown.js("return document.querySelector('#warnings').getBoundingClientRect().top"), True]
        places = "const is = getComputedStyle(document.querySelector('#next .chunk'), '::after'); return [is.content !== 'none', parseFloat(is.height) >= 320]"
        assert shown.js(places) == [True, True]
    finally:
        driver.execute_cdp_cmd("Page.removeScriptToEvaluateOnNewDocument", {"identifier": script["identifier"]})
    shown.open()
    assert shown.js(places)[0] is False
    assert shown.js("return document.querySelector('#next thead').checkVisibility({checkVisibilityCSS: true})")
    shown.open("?status=cancelled")
    assert not shown.js(heads)


def test_a_what_if_takes_hours_and_minutes(page):
    """As a form does: of the plan's day, or of the second one with its date before them. What it takes is said under the field."""
    shown = page().open()
    shown.click("#b-what-if")
    shown.says("#scenario-h", "A time is HH:MM UTC (or 10 HH:MM, or with its whole date). CLOSE,09,06:20,06:40")
    shown.js(f"document.querySelector('#scenario').value = 'SCENARIO,OPEN-0630\\nOPEN,09,06:30,{at('06:50')}\\nTOBT,BAW3,11 00:12'")
    shown.click("#p-what-if form button")
    shown.says("#wi-flights", "RYR6")
    assert shown.texts("#wi-flights tr")[-1] == "RYR6 06:38 06:18 −20 min" and "BAW3 06:00 11 00:12" in " ".join(shown.texts("#wi-flights tr"))
    shown.says("#rw-09 + .scroll .wi", "RYR6*")
    shown.click("#b-pictures")
    shown.says("#picture", "OPEN-0630")


def test_an_error_of_a_what_if_hides_the_comparison(page):
    shown = page().open()
    shown.click("#b-what-if")
    shown.js("document.querySelector('#scenario').value = 'SCENARIO,A\\nTOBT,DLH1,2025-03-10T06:20Z'")
    shown.click("#p-what-if form button")
    shown.says("#wi-table", "difference")
    shown.allowed.append("422 (Unprocessable Entity)")
    shown.js("document.querySelector('#scenario').value = 'SCENARIO,A\\nFOO,1'")
    shown.click("#p-what-if form button")
    shown.says("#wi-fault", "FOO")
    assert not shown.find("#wi-answer").is_displayed()


def test_an_error_of_a_what_if_is_said_at_its_line(page):
    """In the program's words, with that line marked; and of several scenarios that are compared beside the one that the day refuses."""
    shown = page().open()
    shown.allowed.append("422 (Unprocessable Entity)")
    shown.click("#b-what-if")
    shown.says("#scenario-h", "CLOSE,09,06:20,06:40")
    shown.until("return document.querySelector('#p-what-if form.send [name=kind]') !== null")
    shown.choose("#p-what-if form.send [name=kind]", "CNL")
    shown.type("#p-what-if form.send [name=flight]", "DLH2")
    shown.click("#p-what-if form.send button[type=submit]")
    shown.says("#p-what-if form.send .reply", "Added to scenario A; nothing is sent.")
    shown.js("document.querySelector('#scenario').value = 'SCENARIO,A\\nTOBT,DLH1,06:20\\nCLOSE,09,06:20\\n'")
    shown.click("#p-what-if form button")
    shown.says("#wi-fault", "Line 3: CLOSE takes 4 fields (CLOSE, runway, from, to); this record has 3.")
    # It is between the button that was pressed and the form below, which says no more what was added.
    assert shown.js("""const [button, fault, form] = ['#p-what-if form button', '#wi-fault', '#p-what-if form.send'].map((place) => document.querySelector(place).getBoundingClientRect());
        return [fault.top - button.bottom < 40, fault.bottom <= form.top];""") == [True, True]
    assert not shown.find("#p-what-if form.send .reply").is_displayed()
    assert "cdmseq" not in shown.text("#wi-fault")
    assert shown.js("const box = document.querySelector('#scenario'); return box.value.slice(box.selectionStart, box.selectionEnd)") == "CLOSE,09,06:20"
    shown.js("document.querySelector('#scenario').value = 'SCENARIO,A\\nTOBT,DLH1,06:20\\nSCENARIO,B\\nPRIO,DLH2,0\\nPRIO,XY9,0'")
    shown.click("#p-what-if form button")
    shown.says("#wi-table", "B Refused at line 5: XY9 has no FLT that was accepted before this record")
    assert shown.texts("#wi-table tr")[-1].startswith("difference") and not shown.find("#wi-fault").is_displayed()


def test_a_fault_of_a_what_if_is_a_sentence(page):
    """Also where it isn't about what is written."""
    shown = page().open("#what-if")
    shown.says("#scenario-h", "CLOSE,09,06:20,06:40")
    shown.js("""const real = fetch; window.fetch = async (...words) => (!String(words[0]).startsWith('/v1/compare') ? real(...words)
        : new Response(JSON.stringify({ status: 504, detail: 'the program took longer than 10 seconds' }), { status: 504, headers: { 'Content-Type': 'application/problem+json' } }));""")
    shown.js("document.querySelector('#scenario').value = 'SCENARIO,A\\nPRIO,DLH2,0'")
    shown.click("#p-what-if form button")
    shown.says("#wi-fault", "The program took longer than 10 seconds.")


def test_a_runway_that_closes_again(page):
    shown = page()
    fill(shown.server, {"ATC": [f"CLOSE,27L,{at('05:50')},{at('06:00')}", f"CLOSE,27L,{at('06:10')},{at('06:20')}"]})
    shown.open()
    assert shown.text("#rw-27L").startswith("27L closed, opens at 06:00, closes again at 06:10")


def test_a_window_without_a_minute(page):
    """AFR4's window is 07:05 to 07:20, in which 09 is closed; EZY7 is ready at 07:15, and its window ended at 06:40."""
    shown = page()
    fill(shown.server, {"ATC": [f"CLOSE,09,{at('07:00')},{at('07:30')}"]})
    shown.open("#AFR4")
    shown.says("#why-note", "Blocked by CLOSURE: no minute from 06:52 to 07:20, the end of its CTOT window, is free.")
    shown.js("location.hash = '#EZY7'")
    shown.says("#why-note", "Blocked by CTOT: it can take off from 07:15 on, and then its CTOT window has ended.")


def test_a_link_to_a_flight_outlives_the_sign_in(page):
    shown = page().open("#DLH2")
    shown.js("location.hash = '#sign-in'")
    shown.until("return !document.querySelector('#p-sign-in').hidden")
    shown.click("#p-sign-in .x-close")
    shown.says("#h-f", "DLH2")
    assert shown.js("return location.hash") == "#DLH2"


def test_what_just_was_done_is_said_before_its_warning(page):
    """A record that made a warning, and one that comes with the next."""
    shown = page().open()
    shown.server.post(f"CTOT,AFR4,{at('06:40')}", Cdm_Role="NM")
    shown.says("#conn", "NM sent CTOT AFR4 06:40. 1 start-up moved. It made a new warning: BLOCKED AFR4.")
    shown.server.post([f"CTOT,AFR4,{at('07:10')}", f"CTOT,BAW3,{at('05:00')}"], Cdm_Role="NM")
    shown.says("#conn", "warning: BLOCKED BAW3.")
    assert "AFR4" not in shown.text("#conn")


def test_what_was_sent_from_here_is_said_at_once(page):
    """Also where something else was said just before it."""
    shown = page().open("#AFR4")
    shown.choose("#role", "NM")
    shown.says("#p-flight form", "Kind")
    for time in ("06:40", "07:10"):
        position = len(shown.server.records()) + 1
        shown.type("#p-flight form [name=time]", time)
        shown.click("#p-flight form button")
        shown.until("return document.querySelector('#p-flight .reply').innerText.includes(arguments[0])"
                    " && document.querySelector('#p-flight .c-ctot').textContent === arguments[1]", f"record {position}", time)
        said = shown.text("#conn")
        assert f"NM sent CTOT AFR4 {time}." in said, said
        if time == "06:40":
            shown.says("#conn", "It made a new warning: BLOCKED AFR4.")
    assert "warning" not in shown.text("#conn")



def test_the_page_says_the_program_s_words(page):
    """MAX, CLOSED and the wake category have one word each."""
    shown = page().open("#RYR6")
    assert shown.texts("header dt")[-1] == "max delay" and "wake category M" in shown.text("#h-f")
    assert "closed" in shown.text("#rw-09 + .scroll")
    for path in sorted((ROOT / "board/page").glob("*.js")) + [ROOT / "board/page/index.html"]:
        text = path.read_text()
        assert "greatest" not in text and "? 'shut'" not in text, path.name




# Texts of the header that run into the place below the totals, and whether what is said there fits it.
BELOW_TOTALS = r"""
const list = document.querySelector('header dl'), box = list.getBoundingClientRect(), room = parseFloat(getComputedStyle(list).paddingBottom);
const said = getComputedStyle(list, '::after'), [left, width, height] = [said.left, said.width, said.height].map(parseFloat);
const bad = height > room + 0.5 || left + width > box.width + 0.5 ? [`${width} ${height} in ${box.width} ${room}`] : [];
const walker = document.createTreeWalker(document.querySelector('header'), NodeFilter.SHOW_TEXT);
while (walker.nextNode()) {
  const range = document.createRange();
  range.selectNodeContents(walker.currentNode);
  for (const one of range.getClientRects())
    if (one.width > 1 && one.left < box.right && one.right > box.left && one.top < box.bottom - 1 && one.bottom > box.bottom - room + 3)
      bad.push(walker.currentNode.data);
}
return [said.content !== 'none', bad];
"""


@pytest.mark.parametrize("how", ["", SPACED, LARGE], ids=["plain", "spacing", "size"])
def test_of_which_record_the_totals_are_is_readable(page, how):
    """It has a place of its own at each size: no other text of the header is there."""
    shown = page().open()
    shown.js(how)
    for width in (320, 500, 701, 1000, 1219, 1280, 1920, 3840):
        size(shown.driver, width, 900)
        shown.js("document.querySelector('header dl').dataset.of = 'still of record 19999'")
        assert shown.js(BELOW_TOTALS) == [True, []], width


NAMES = ["BAW70AC", "SAS71AC", "AFR90AC", "KLM60AC", "EWG88AC"]


def test_names_of_next_leave_a_gap(page):
    """Names of seven letters, as flights have them, don't run into the runway."""
    shown = page(day={"AP": [f"FLT,{name},5" for name in NAMES], "ATC": [f"RWY,{name},27L" for name in NAMES] + [f"CLOCK,{at('05:50')}"],
                      "AO": [f"TOBT,{name},{at('06:00')}" for name in NAMES]}).open()
    for width in (320, 360, 701, 861, 1280, 1900, 3840):
        size(shown.driver, width, 900)
        gaps = shown.js("""return [...document.querySelectorAll('#next tbody tr')].map((row) =>
            row.querySelector('.c-runway').getBoundingClientRect().left - row.querySelector('th a').getBoundingClientRect().right)""")
        assert len(gaps) == 5 and min(gaps) >= 1, (width, gaps)
        assert shown.js(CLIPPED) == [] and shown.js(BROKEN) == [], width


@pytest.mark.parametrize("width", [1280, 3840])
def test_the_causes_are_seen_whole(page, width):
    shown = page()
    size(shown.driver, width, 900)
    shown.open()
    shown.js("document.querySelector('#causes').open = true")
    shown.says("#causes", "TOTAL")
    assert shown.js("""const cells = [...document.querySelectorAll('#causes tbody tr:last-child td')];
        const box = document.querySelector('#causes .scroll');
        for (const cell of cells) cell.textContent = '2222';
        return [cells.length, box.scrollWidth - box.clientWidth];""") == [7, 0]


def test_the_end_of_a_panel_is_seen_while_the_connection_is_lost(page):
    """On a narrow screen the connection is said over the panel's end: the panel can be scrolled past that."""
    shown = page()
    size(shown.driver, 320, 640)
    shown.open("#RYR6")
    shown.until("return document.querySelectorAll('#f-records tr').length > 0")
    shown.allowed += ["ERR_CONNECTION_REFUSED", "ERR_INCOMPLETE_CHUNKED_ENCODING", "ERR_CONNECTION_RESET", "ERR_EMPTY_RESPONSE"]
    shown.server.kill()
    shown.says("#conn", "CONNECTION LOST since ")
    shown.js("document.querySelector('#p-flight').scrollTop = 99999")
    assert shown.js("""const [end, over] = ['#f-records tr:last-child', '.conn'].map((one) => document.querySelector(one).getBoundingClientRect());
        return end.bottom <= over.top;""")


@pytest.mark.parametrize("width", [900, 1280, 1920, 3840])
def test_a_date_of_next_stays_with_its_time(page, width):
    """At 23:20 there are times of the second day among the next start-ups: 11 00:15."""
    shown = page()
    fill(shown.server, {"ATC": [f"CLOCK,{at('23:20')}"], "AO": ["TOBT,DLH1,2025-03-11T00:00Z"], "NM": ["CTOT,DLH1,2025-03-11T00:20Z"]})
    size(shown.driver, width, 900)
    shown.open()
    dates = r"""const found = [];
        for (const cell of document.querySelectorAll('#next tr[data-flight=DLH1] td:is(.c-tobt,.c-ctot,.c-ttot)')) {
          const range = document.createRange();
          range.selectNodeContents(cell);
          const lines = new Set([...range.getClientRects()].map((box) => box.top)).size;
          if (/^11 \d\d:\d\d$/.test(cell.innerText)) found.push([lines, cell.scrollWidth <= cell.clientWidth]);
        }
        return found;"""
    assert shown.js(dates) == [[1, True]] * 3 and shown.js(CLIPPED) == []
    shown.server.post("TOBT,DLH1,2025-03-10T23:30Z", Cdm_Role="AO")
    shown.server.post("CTOT,DLH1,-", Cdm_Role="NM")
    shown.until("return !document.querySelector('#next').classList.contains('dated')")


def test_a_date_stays_with_its_time(page):
    """RYR6 waits for a runway that is closed to 00:30 of the second day, so to 11 00:29: that isn't broken before its hour."""
    shown = page()
    shown.server.post("TOBT,RYR6,2025-03-10T23:45Z", Cdm_Role="AO")
    shown.server.post("CLOSE,09,2025-03-10T23:50Z,2025-03-11T00:30Z", Cdm_Role="ATC")
    for width in (320, 1280):
        size(shown.driver, width, 900)
        shown.open("#RYR6")
        shown.says("#waits", "11 00:29")
        assert shown.js(r"""return [...document.querySelectorAll('#waits li span:nth-child(2)')].map((node) => {
            const text = node.firstChild, range = document.createRange(), at = text.data.search(/11.00:29/);
            if (at < 0) return 0;
            range.setStart(text, at); range.setEnd(text, at + 8);
            return range.getClientRects().length; }).filter(Boolean)""") == [1]


def test_a_new_warning_of_a_cell_says_its_time_in_short(page):
    shown = page().open()
    fill(shown.server, {"ATC": [f"OFF,BAW3,{at('05:50')}", f"OFF,DLH1,{at('05:50')}", f"RATE,27L,{at('06:00')},{at('06:10')},1"]})
    shown.says("#conn", "warning: FULL 27L 06:00.")


def test_buttons_of_a_warning_keep_apart(page):
    """KLM5 is blocked by RATE within its window: another runway may help it, and a smaller priority number."""
    shown = page()
    fill(shown.server, {"ATC": [f"RATE,27L,{at('06:00')},{at('06:30')},1"], "AO": [f"TOBT,KLM5,{at('06:00')}"], "NM": [f"CTOT,KLM5,{at('06:09')}"]})
    for width in (320, 1280, 3840):
        size(shown.driver, width, 900)
        shown.open("#KLM5")
        shown.js("const role = document.querySelector('#role'); role.value = 'ATC'; role.dispatchEvent(new Event('change'))")
        shown.until("return document.querySelectorAll('#f-warnings button').length >= 2")
        boxes = shown.js("""return [...document.querySelectorAll('#f-warnings button')].map((button) => button.getBoundingClientRect())
            .map(({left, top, right, bottom}) => [left, top, right, bottom])""")
        for (_, _, right, bottom), (left, top, _, _) in zip(boxes, boxes[1:]):
            assert left >= right + 4 or top >= bottom + 2, (width, boxes)


def test_a_blocked_flight_is_told_what_frees_it(page):
    """By its rule: EZY7 is ready when its window has ended; AFR4's window is closed; KLM5, ready at 06:15, finds 06:15 to 06:20 taken."""
    shown = page()
    fill(shown.server, {"ATC": [f"CLOSE,09,{at('07:00')},{at('07:30')}", f"RATE,27L,{at('06:00')},{at('06:30')},1"],
                        "AO": [f"TOBT,KLM5,{at('06:00')}"], "NM": [f"CTOT,KLM5,{at('06:09')}"]})
    shown.open()
    ask, open_it, tower = "Ask its operator for an earlier TOBT.", "Open the runway (OPEN), or send another one (RWY).", "Ask the tower to open the runway, or for another one."
    puts, may_put = "Ask the tower to put it (PRIO)", "PRIO puts it"
    said = {"read only": (ask, tower, puts), "ATC": (ask, open_it, may_put), "AO": ("Send an earlier TOBT.", tower, puts)}
    for role, (of_ctot, of_closure, of_rate) in said.items():
        shown.choose("#role", role)
        for name, words in (("EZY7", f"{of_ctot} Or ask the Network Manager for a later CTOT than 06:30."),
                            ("AFR4", f"{of_closure} Or ask the Network Manager for a later CTOT than 07:10."),
                            ("KLM5", f"{of_rate} ahead of those that have its minutes. Or ask the Network Manager for a later CTOT than 06:09.")):
            shown.js("location.hash = arguments[0]", f"#{name}")
            shown.says("#f-warnings", words)


def test_who_may_not_send_is_told_whom_to_ask(page):
    """X1's stand has no taxi time to its runway: the tower may send one or another runway, the airport another stand."""
    shown = page(airport="DAY,2025-03-10\nRUNWAY,27L,10,2\nTAXI,A1,27L,15\n",
                 day={"AP": ["FLT,X1,5", "STAND,X1,B9"], "ATC": ["RWY,X1,27L", f"CLOCK,{at('05:50')}"], "AO": [f"TOBT,X1,{at('06:10')}"]}).open("#X1")
    for role, words in (("read only", "Ask the tower for the taxi time (TAXI) or another runway, or the airport for another stand."), ("AP", "Send STAND."),
                        ("ATC", "Send TAXI or RWY.")):
        shown.choose("#role", role)
        shown.says("#f-warnings", f"BLOCKED It has no start-up time, by EXOT: its stand has no taxi time to its runway. {words}")


def test_a_link_to_a_flight_has_its_form(page):
    """The kinds of records are there before the plan is: the form is made when the flight is."""
    shown = page().open()
    shown.choose("#role", "AO")
    shown.until("return document.querySelector('#b-send').hidden === false")
    script = shown.driver.execute_cdp_cmd("Page.addScriptToEvaluateOnNewDocument", {"source": """const real = window.fetch;
        const came = new Promise((go) => { window.came = go; });
        window.fetch = async (path, ...words) => {
          if (path === '/v1/plan.json') await came;
          const got = await real(path, ...words);
          if (path === '/v1/kinds') setTimeout(window.came, 500);
          return got;
        };"""})
    try:
        shown.open("#EZY7")
        shown.says("#p-flight form", "Kind")
        shown.click("#f-warnings button")
        shown.says("#p-flight form code", "TOBT,EZY7,")
    finally:
        shown.driver.execute_cdp_cmd("Page.removeScriptToEvaluateOnNewDocument", {"identifier": script["identifier"]})


COLOUR = """const [node, name] = [document.querySelector(arguments[0]), arguments[1]], probe = document.createElement('i');
probe.style.color = `var(--${name})`;
document.body.append(probe);
const colour = getComputedStyle(probe).color;
probe.remove();
return [getComputedStyle(node).color === colour];"""


def test_a_day_without_records(page):
    """Nothing is late and nothing blocked, so nothing has their colours; and no record is the last."""
    shown = page(day={}).open()
    shown.says("#conn", "Connected There is no record yet.")
    assert shown.texts("header dd") == ["0"] * 5
    ground = "return getComputedStyle(document.querySelector('#b-act')).backgroundColor"
    calm = shown.js(ground)
    assert shown.js(COLOUR, "#n-late", "warn")[0] is False and shown.text("#b-act") == "0 act now"
    fill(shown.server, {"AP": ["FLT,A1,5"]})
    shown.until("return document.querySelector('#n-blocked').textContent === '1'")
    assert shown.js(ground) == calm and shown.js(COLOUR, "#n-late", "warn")[0] is False
    fill(shown.server, {"AO": ["TOBT,A1,2025-03-10T06:00Z"]})
    shown.until("return document.querySelector('#n-act').textContent === '1'")
    assert shown.js(ground) != calm


def test_a_total_that_is_not_known_has_no_colour(page):
    shown = page()
    script = shown.driver.execute_cdp_cmd("Page.addScriptToEvaluateOnNewDocument", {"source": """const real = window.fetch;
        window.fetch = (path, ...words) => (path === '/v1/plan.json' ? new Promise(() => {}) : real(path, ...words));"""})
    try:
        shown.open(ready=False)
        shown.until("return document.querySelector('#role').options.length > 1")
        assert shown.text("#n-late") == "–" == shown.text("#n-act") and shown.js(COLOUR, "#n-late", "warn")[0] is False
    finally:
        shown.driver.execute_cdp_cmd("Page.removeScriptToEvaluateOnNewDocument", {"identifier": script["identifier"]})


# At 00:03 of the second day two flights have left before midnight, and aren't airborne.
NIGHT = {"AP": ["FLT,LX1,5", "FLT,SWR88AC,5", "FLT,AB1,5"], "ATC": ["RWY,LX1,09", "RWY,SWR88AC,27L", "RWY,AB1,27L", f"CLOCK,{at('23:30')}"],
         "AO": [f"TOBT,LX1,{at('23:35')}", f"TOBT,SWR88AC,{at('23:40')}", "TOBT,AB1,2025-03-11T03:20Z"]}
LEFT = [f"OFF,LX1,{at('23:35')}", f"OFF,SWR88AC,{at('23:52')}", "CLOCK,2025-03-11T00:03Z"]


@pytest.mark.parametrize("width", [320, 1280, 3840])
def test_what_is_known_before_a_change_of_day(page, width):
    """It is read whole, says times as the rest of the page does, has the focus, and doesn't stay when the day has changed."""
    shown = page(day=NIGHT)
    fill(shown.server, {"ATC": LEFT})
    size(shown.driver, width, 640)
    shown.open()
    shown.click("#date")
    shown.says("#day", "LEFT LX1 09 AOBT 10 23:35 TTOT 10 23:47 LEFT SWR88AC 27L AOBT 10 23:52 TTOT 11 00:07")
    assert shown.js("const box = document.querySelector('#day'); return [box.scrollWidth <= box.clientWidth, document.activeElement === box]") == [True, True]
    answer = shown.server.request("POST", "/v1/day", "", Cdm_Role="ATC")
    assert answer.status == 409 and shown.find("#day").is_displayed()
    answer = shown.server.request("POST", "/v1/day?even=yes&day=2025-03-11", "", Cdm_Role="ATC")
    assert answer.status == 200, answer
    shown.says("h1", "Tue 11 Mar 2025")
    assert not shown.find("#day").is_displayed()


# Texts of the header that the link to the next start-ups covers.
COVERED = r"""
const link = document.querySelector('.skip').getBoundingClientRect(), bad = [];
const walker = document.createTreeWalker(document.querySelector('header'), NodeFilter.SHOW_TEXT);
while (walker.nextNode()) {
  if (!walker.currentNode.data.trim() || !walker.currentNode.parentElement.checkVisibility()) continue;
  const range = document.createRange();
  range.selectNodeContents(walker.currentNode);
  for (const one of range.getClientRects())
    if (one.width > 0 && one.left < link.right && one.right > link.left && one.top + 4 < link.bottom && one.bottom - 4 > link.top) bad.push(walker.currentNode.data);
}
return bad;
"""


@pytest.mark.parametrize("how", ["", SPACED, LARGE, BOTH], ids=["plain", "spacing", "size", "both"])
def test_the_link_to_the_next_start_ups_covers_nothing(page, how):
    """On a phone it is always there; NOW may have a date, and the page's date can be pressed."""
    shown = page(day=NIGHT)
    fill(shown.server, {"ATC": LEFT})
    for width in (320, 360, 700):
        size(shown.driver, width, 900)
        shown.open()
        shown.js(how)
        shown.until("return document.documentElement.classList.contains('l-spaced') || arguments[0]", how in ("", LARGE))
        assert shown.text(".now time") == "11 00:03" and shown.js(COVERED) == [], width
        shown.click("#date")
        shown.says("#day", "LEFT")
        shown.js("document.querySelector('#day').hidePopover()")


def test_the_totals_stay_in_one_line_with_a_date(page):
    """The page doesn't move down when NOW has a date."""
    shown = page(day=NIGHT)
    fill(shown.server, {"ATC": LEFT})
    for width in (1220, 1280, 1920, 3840):
        size(shown.driver, width, 900)
        shown.open()
        assert shown.text(".now time") == "11 00:03"
        assert shown.js("return new Set([...document.querySelectorAll('header dd')].map((one) => one.getBoundingClientRect().top)).size") == 1, width
        assert shown.js("return document.documentElement.scrollWidth") <= width


def test_a_log_that_is_away_is_an_alert(page):
    """It is said at once, and no record is said to be the last one."""
    shown = page().open()
    shown.js("""const real = fetch; window.fetch = async (...words) => {
        const got = await real(...words); const headers = new Headers(got.headers); headers.set('Cdm-Stale-Since', '2025-03-10T05:49:12.000Z');
        const body = words[0] === '/health' ? JSON.stringify({...await got.json(), stale_since: '2025-03-10T05:49:12.000Z'}) : got.body;
        return new Response(body, {status: got.status, headers}); };""")
    shown.says("#stale", "The log isn’t reached since 05:49:12 UTC", seconds=20 + WAIT)
    alerts = shown.js("return [...document.querySelectorAll('[role=alert]')].filter((one) => one.textContent && one.checkVisibility()).map((one) => one.textContent)")
    assert len(alerts) == 1 and alerts[0].startswith("The log isn’t reached since 05:49:12 UTC")
    shown.until("return !document.querySelector('#conn').innerText.includes('is the last')")


def test_a_filter_that_shows_nothing_says_so(page):
    """There are start-ups in the next 60 minutes, but not those of the filter."""
    shown = page().open("?op=XYZ")
    assert shown.text("#next .empty") == "No start-up that the filter shows in the next 60 minutes."
    shown.click("#show-all")
    shown.until("return document.querySelector('#next .empty').hidden")
    fill(shown.server, {"AO": [f"CNL,{name}" for name in ("BAW3", "DLH1", "DLH2", "RYR6")]})
    shown.says("#next .empty", "No start-up in the next 60 minutes.")


def test_warnings_of_one_flight(page):
    """A2 is overdue and missed its window: two warnings, one flight, one place in the strip."""
    shown = page(day={"AP": ["FLT,A2,5"], "ATC": ["RWY,A2,27L"], "NM": [f"CTOT,A2,{at('06:20')}"]})
    fill(shown.server, {"ATC": [f"OFF,A2,{at('06:05')}", f"CLOCK,{at('06:40')}"]})
    shown.open()
    assert shown.texts("#warnings li") == ["OVERDUE A2 TTOT 06:20; MISSED CTOT 06:20", "BLOCKED, EDGE, PAST, AHEAD, FULL, SHUT: none"]
    assert shown.text("#h-w") == "Warnings 2 1 flight"
    shown.server.post(f"AIR,A2,{at('06:21')}", Cdm_Role="ATC")
    shown.until("return document.querySelector('#h-w').innerText.trim() === 'Warnings 0'")
