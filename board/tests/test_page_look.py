"""How the page looks: the line of state, one meaning a colour, rows that are targets, and the cause with the flight in its way. The day by hand
is in browser.py."""
import json

import pytest
from browser import fill, size
from conftest import ROOT
from selenium_or_none import Keys
from test_page_eye import SPACED


def at(time):
    return f"2025-03-10T{time}Z"


def colour(shown, name):
    """What the browser makes of a colour of the page."""
    return shown.js("""const probe = document.createElement('i'); probe.style.color = `var(--${arguments[0]})`; document.body.append(probe);
        const is = getComputedStyle(probe).color; probe.remove(); return is;""", name)


STATE = """scrollTo(0, 99999); await new Promise((go) => requestAnimationFrame(() => requestAnimationFrame(go)));
const head = document.querySelector('header').getBoundingClientRect();
const inSight = ['.now time', '#pills', '#b-act', 'header dl', '#conn'].filter((one) => { const box = document.querySelector(one).getBoundingClientRect();
  return box.width > 0 && box.top >= -0.5 && box.bottom <= head.bottom + 0.5; });
return [scrollY > 0, Math.round(head.bottom * 16 / parseFloat(getComputedStyle(document.documentElement).fontSize)), inSight];"""


@pytest.mark.parametrize("width", [1280, 1920, 3840])
def test_the_line_of_state_stays(page, width):
    """56 px at 1,280 px, of which nothing is covered; also where no CLOCK came, or NOW has a date."""
    names = [f"X{number:03}" for number in range(90)]
    shown = page(day={"AP": [f"FLT,{name},5" for name in names], "ATC": [f"RWY,{name},27L" for name in names] + [f"CLOCK,{at('05:50')}"]})
    size(shown.driver, width, 900)
    shown.open()
    state = lambda: shown.driver.execute_async_script(f"const done = arguments[0]; (async () => {{ {STATE} }})().then(done)")
    assert state() == [True, 57, [".now time", "#pills", "#b-act", "header dl", "#conn"]]
    shown.js("document.querySelector('#no-clock').style.setProperty('display', 'block', 'important')")
    assert shown.text("#no-clock").startswith("no CLOCK since ") and state()[:2] == [True, 57]
    fill(shown.server, {"ATC": ["CLOCK,2025-03-11T00:03Z"]})
    shown.says(".now", "11 00:03")
    assert state()[:2] == [True, 57]


def test_what_the_line_of_state_says(page):
    shown = page().open()
    assert shown.texts("#pills li") == ["09 open to 06:20", "27L open"]  # `load` has no capacity of cells before the first take-off
    assert shown.text("#b-act") == "1 act now"  # EZY7 is blocked, and has a TOBT; nobody expects KLM5 yet
    fill(shown.server, {"ATC": [f"CLOSE,27L,{at('05:50')},{at('06:00')}", f"CLOSE,27L,{at('06:10')},{at('06:20')}", f"CLOSE,09,{at('05:52')},{at('05:55')}"]})
    shown.says("#pills", "27L shut to 06:00, again 06:10")
    assert shown.texts("#pills li.shut") == ["09 shut 3 of 10 min", "27L shut to 06:00, again 06:10"]
    # A closure that begins in the cell of NOW: the minutes of that cell, and when it opens.
    fill(shown.server, {"ATC": [f"CLOSE,09,{at('05:52')},{at('06:10')}"]})
    shown.says("#pills", "09 shut 8 of 10 min, then to 06:10, again 06:20")
    assert shown.texts(".band h3 b")[0] == "closed 8 of these 10 min, opens at 06:10, closes again at 06:20"
    fill(shown.server, {"ATC": [f"CLOSE,27L,{at('05:50')},2025-03-11T12:00Z", f"CLOSE,09,{at('05:52')},2025-03-11T12:00Z"]})
    shown.until("return document.querySelector('#pills').innerText.endsWith('27L shut')")
    assert shown.texts("#pills li.shut")[0] == "09 shut 8 of 10 min and on" and shown.texts(".band h3 b")[0] == "closed 8 of these 10 min, then for these hours"
    fill(shown.server, {"AO": ["CNL,EZY7"]})
    shown.until("return document.querySelector('#b-act').innerText.replace(/\\s+/g, ' ').includes('act now') && !document.querySelector('#warnings .EZY7')")


def test_the_line_of_state_has_the_capacity_of_the_cell_that_is_now(page):
    """DLH1 has left, and takes off at 06:15: its cell is the one of NOW, and takes two flights in ten minutes."""
    shown = page()
    fill(shown.server, {"ATC": [f"OFF,DLH1,{at('06:00')}", f"CLOCK,{at('06:12')}"]})
    shown.open()
    shown.says("#pills", "27L open 2/10'")


def test_of_many_runways_those_are_named_that_are_not_just_open(page):
    names = ["09", "18", "25C", "25L", "27L", "36"]
    airport = "DAY,2025-03-10\n" + "".join(f"RUNWAY,{name},10,2\nTAXI,*,{name},15\n" for name in names)
    shown = page(airport=airport, day={"AP": ["FLT,A1,5"], "ATC": ["RWY,A1,18", f"CLOCK,{at('05:50')}"]}).open()
    assert shown.texts("#pills li") == ["6 open"]
    fill(shown.server, {"ATC": [f"CLOSE,25C,{at('05:50')},{at('06:30')}"]})
    shown.says("#pills", "25C shut to 06:30 5 others open")


def test_act_now_leads_to_the_warning(page):
    shown = page().open()
    shown.js("scrollTo(0, 99999)")
    shown.click("#b-act")
    assert shown.js("const a = document.activeElement; return [a.textContent, a.closest('#warnings') !== null]") == ["EZY7", True]


def test_flights_begin_high(page):
    """The first flight's row is in the upper third of a screen of 900 px, below two runways."""
    shown = page().open()
    assert shown.js("return document.querySelector('#next tbody tr').getBoundingClientRect().top") <= 300


RED = """const red = new Set(arguments[0]), found = new Set();
for (const node of document.querySelectorAll('body *')) {
  if (!node.checkVisibility({checkVisibilityCSS: true})) continue;
  const style = getComputedStyle(node), own = [...node.childNodes].some((one) => one.nodeType === 3 && one.data.trim());
  if (own && red.has(style.color) || red.has(style.backgroundColor) || ['Top', 'Left'].some((side) => parseFloat(style[`border${side}Width`]) && red.has(style[`border${side}Color`])))
    found.add(node.closest('[id]').id + ' ' + (node.closest('.w')?.className ?? ''));
}
return [...found].sort();"""


@pytest.mark.parametrize("theme", ["light", "dark"])
def test_red_is_act_now_alone(page, theme):
    """BAW3 left, is overdue, and its runway is closed; DLH1 left, and missed its window. Neither is red: EZY7 is, which nobody can start up."""
    shown = page()
    fill(shown.server, {"NM": [f"CTOT,DLH1,{at('05:50')}"], "ATC": [f"OFF,BAW3,{at('05:50')}", f"OFF,DLH1,{at('06:00')}", f"CLOCK,{at('06:30')}",
                                                                 f"CLOSE,27L,{at('06:30')},{at('07:30')}"]})
    shown.open()
    shown.js("document.documentElement.dataset.theme = arguments[0]", theme)
    assert {"OVERDUE", "MISSED", "SHUT", "BLOCKED"} <= {word for text in shown.texts("#warnings li:not(.none)") for word in text.split()}
    reds = [colour(shown, name) for name in ("alarm", "alarm-bg")]
    assert shown.js(RED, reds) == ["b-act ", "warnings w BLOCKED"]
    fill(shown.server, {"AO": [f"CNL,{name}" for name in ("EZY7", "KLM5", "DLH2", "RYR6", "AFR4")]})
    shown.until("return document.querySelector('#n-act').textContent === '0'")
    assert shown.js(RED, reds) == []


def test_each_colour_has_one_meaning(page):
    """Amber is late or at a CTOT, violet is what-if, blue is what is chosen."""
    shown = page().open()
    style = lambda selector, name: shown.js("return getComputedStyle(document.querySelector(arguments[0]))[arguments[1]]", selector, name)
    assert style('#next tr[data-flight="RYR6"] .c-delay', "color") == colour(shown, "warn")
    assert style('#next tr[data-flight="DLH2"] .c-delay', "color") == colour(shown, "fg")
    assert style('#all tr[data-flight="AFR4"] .c-ctot', "color") == colour(shown, "warn")
    assert style('#all tr[data-flight="BAW3"] .c-ctot', "color") == colour(shown, "fg")
    shown.js("location.hash = '#what-if'")
    shown.says("#rw-09 + .scroll .wi", "–")
    assert style(".band .wi", "backgroundColor") == colour(shown, "wi-bg") and style("#p-what-if", "borderLeftColor") == colour(shown, "wi")
    shown.js("location.hash = '#RYR6'")
    shown.until("return document.querySelector('tr.open') !== null")
    assert style("tr.open", "outlineColor") == colour(shown, "link") == style("#p-flight", "borderLeftColor")


def test_a_panel_has_one_primary_button(page):
    shown = page().open()
    shown.choose("#role", "ATC")
    shown.until("return document.querySelector('#b-send').hidden === false")
    primary = """return [...document.querySelectorAll('.panel:not([hidden]) button')].filter((one) => one.checkVisibility()
        && getComputedStyle(one).backgroundColor === arguments[0]).map((one) => one.textContent)"""
    for path, word in (("#RYR6", "Send"), ("#what-if", "Compare"), ("#send", "Send"), ("#sign-in", "Sign in")):
        shown.js("location.hash = arguments[0]", path)
        shown.until("return document.querySelector('.panel:not([hidden]) form button') !== null && location.hash === arguments[0]", path)
        shown.until("return document.querySelector(`#p-${arguments[0]}`).checkVisibility()", "flight" if path == "#RYR6" else path[1:])
        assert shown.js(primary, colour(shown, "link")) == [word], path
    shown.js("document.querySelector('#p-sign-in form button').disabled = true")
    assert shown.js(primary, colour(shown, "link")) == []  # none while it can't be pressed


@pytest.mark.parametrize("width", [1280, 1920, 3840])
def test_a_row_is_a_target(page, width):
    """Rows of 32 px: a press anywhere in one opens its flight, and so does the keyboard, which shows the whole row."""
    shown = page()
    size(shown.driver, width, 900)
    shown.open()
    assert set(shown.js("""const rem = parseFloat(getComputedStyle(document.documentElement).fontSize) / 16;
        return [...document.querySelectorAll('#next tbody tr')].map((row) => Math.round(row.getBoundingClientRect().height / rem))""")) <= {32, 33}
    shown.click('#next tr[data-flight="RYR6"] .c-delay')
    shown.says("#h-f", "RYR6")
    assert shown.js("return location.hash") == "#RYR6"
    shown.click('#all tr[data-flight="DLH2"] .c-ttot')
    shown.says("#h-f", "DLH2")
    shown.keys(Keys.ESCAPE)
    shown.until("return document.activeElement.textContent === 'RYR6'")  # which was opened first
    outline = "return getComputedStyle(document.querySelector('#next tr[data-flight=BAW3]')).outlineStyle"
    assert shown.js(outline) == "none"
    shown.js("document.querySelector('#next tr[data-flight=BAW3] th a').focus({focusVisible: true})")
    assert shown.js(outline) == "solid"


def test_text_can_be_chosen_in_a_row(page):
    shown = page().open()
    shown.js("""const cell = document.querySelector('#next tr[data-flight=RYR6] .c-tobt'); getSelection().selectAllChildren(cell);
        cell.dispatchEvent(new MouseEvent('click', {bubbles: true, cancelable: true}))""")
    assert shown.js("return [location.hash, getSelection().toString().trim()]") == ["", "06:10"]


# At 05:50, two minutes apart on 27L: B is ready when A has the runway, and C has a cause of its own.
SPACED_DAY = {"AP": ["FLT,A1,1", "FLT,B2,2", "FLT,C3,3"], "ATC": ["RWY,A1,27L", "RWY,B2,27L", "RWY,C3,27L", f"CLOSE,27L,{at('06:30')},{at('06:40')}",
                                                              f"CLOCK,{at('05:50')}"],
              "AO": [f"TOBT,A1,{at('06:00')}", f"TOBT,B2,{at('06:00')}", f"TOBT,C3,{at('06:20')}"]}
SPACING = "DAY,2025-03-10\nRUNWAY,27L,10,4\nTAXI,*,27L,15\nSPACE,27L,M,2\n"


def test_a_cause_says_the_flight_in_its_way(page):
    """In the colour of the panel and of the picture; a press on the other flight opens that one."""
    shown = page(airport=SPACING, day=SPACED_DAY).open()
    assert [shown.row("next", name)[9] for name in ("A1", "B2", "C3")] == ["–", "spacing A1", "closure"]
    ground = "return getComputedStyle(document.querySelector(`#next tr[data-flight=${arguments[0]}] .cause`)).backgroundColor"
    assert [shown.js(ground, name) for name in ("B2", "C3")] == [colour(shown, "kS"), colour(shown, "kX")]
    shown.click('#next tr[data-flight="B2"] .why a')
    shown.says("#h-f", "A1")
    # The flight in its way is another one: now B2 is first.
    fill(shown.server, {"ATC": ["PRIO,B2,0"]})
    shown.until("return document.querySelector('#next tr[data-flight=A1] .why').innerText.trim().startsWith('spacing B2')")
    assert shown.row("next", "B2")[9].split(" ")[0] == "–"


def test_it_is_the_flight_that_why_names(page):
    """Of each flight of a whole morning that waits for its spacing, by the program's own answer."""
    day = ROOT / "examples/sixty_flights"
    shown = page(airport=(day / "airport.csv").read_text(), day={})
    lines = [line.partition(",")[::2] for line in (day / "feed.csv").read_text().splitlines()]
    for role in dict.fromkeys(role for role, _ in lines):
        assert role in ("AP", "ATC", "AO", "GH", "NM")
    for role, line in lines:
        shown.server.post(line, Cdm_Role=role)
    shown.open()
    shown.until("return ![...document.querySelectorAll('#next .cause')].some((one) => one.innerText === '…')")
    said = shown.js("""return [...document.querySelectorAll('#next tbody tr')].filter((row) => row.querySelector('.cause').innerText === 'spacing')
        .map((row) => [row.dataset.flight, row.querySelector('.why a').innerText])""")
    assert len(said) >= 8
    for name, by in said:
        why = json.loads(shown.server.get(f"/v1/why/{name}.json").body)
        assert why["waits"][-1]["reason"] == "SPACING" and by in why["waits"][-1]["flights"], (name, by, why["waits"][-1])


# Times, names and runways within any text that stand in two lines.
TOKENS = r"""
const bad = [];
const walker = document.createTreeWalker(document.body, NodeFilter.SHOW_TEXT);
while (walker.nextNode()) {
  const text = walker.currentNode, parent = text.parentElement;
  if (!parent.checkVisibility() || parent.closest('.vh, .probe, svg, option, textarea, code')) continue;
  for (const found of text.data.matchAll(/\d\d:\d\d|\b(?:[A-Z]{3}\d[A-Z0-9]*|\d\d[LCR]?)\b/g)) {
    const range = document.createRange();
    range.setStart(text, found.index); range.setEnd(text, found.index + found[0].length);
    if (new Set([...range.getClientRects()].filter((box) => box.width > 0).map((box) => Math.round(box.top))).size > 1) bad.push(`${found[0]} in ${text.data}`);
  }
}
return bad;
"""


@pytest.mark.parametrize("width", [320, 360])
def test_no_time_runway_or_name_stands_in_two_lines(page, width):
    """Wherever it stands: in the line of state, in what moved and why, in a panel; also where the reader spaces the text."""
    shown = page()
    size(shown.driver, width, 740)
    shown.open()
    fill(shown.server, {"ATC": [f"CLOSE,27L,{at('05:50')},{at('06:00')}", f"CLOSE,27L,{at('06:10')},{at('06:20')}"], "AO": [f"TOBT,DLH1,{at('06:20')}"]})
    shown.says("#pills", "27L shut to 06:00, again 06:10")
    for how in ("", SPACED):
        shown.js(how)
        for path in ("", "#RYR6", "#EZY7", "#act", "#keys"):
            shown.js("location.hash = arguments[0]", path)
            shown.until("return [...document.querySelectorAll('.panel')].filter((p) => !p.hidden).length === (arguments[0] ? 1 : 0)", path)
            if path == "#act":
                shown.says("#act", "The first free take-off is 07:15")
            elif path and path != "#keys":
                shown.until("return document.querySelectorAll('#waits li').length > 0 && document.querySelector('#h-f span').textContent === arguments[0].slice(1)", path)
            assert shown.js(TOKENS) == [], (path, how != "")
            assert shown.js("return document.documentElement.scrollWidth") <= width
