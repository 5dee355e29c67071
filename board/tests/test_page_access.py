"""The page by keyboard, by a screen reader, at each size and in each theme. The day by hand is in browser.py."""
import time

import pytest
from browser import WAIT, size, until
from selenium_or_none import Keys

# The contrast of each text over its ground, from what the browser computes. Under 4.5 it is told, but for what is disabled.
CONTRAST = r"""
const channels = (text) => { const c = text.match(/[\d.]+/g).map(Number); return c.length < 4 ? [...c.slice(0, 3), 1] : c; };
const part = (c) => { c /= 255; return c <= 0.03928 ? c / 12.92 : ((c + 0.055) / 1.055) ** 2.4; };
const light = (c) => 0.2126 * part(c[0]) + 0.7152 * part(c[1]) + 0.0722 * part(c[2]);
const over = (top, ground) => [0, 1, 2].map((i) => top[i] * top[3] + ground[i] * (1 - top[3])).concat(1);
const groundOf = (node) => {
  const layers = [];
  for (let at = node; at; at = at.parentElement) layers.push(channels(getComputedStyle(at).backgroundColor));
  return layers.reverse().reduce((ground, layer) => over(layer, ground), [255, 255, 255, 1]);
};
const bad = []; let count = 0;
const walker = document.createTreeWalker(document.body, NodeFilter.SHOW_TEXT);
while (walker.nextNode()) {
  const node = walker.currentNode.parentElement;
  if (!walker.currentNode.data.trim() || !node.checkVisibility({checkVisibilityCSS: true, checkOpacity: true})
    || node.closest('.vh, .skip, template, script, option, :disabled')) continue;
  const ground = groundOf(node), style = getComputedStyle(node);
  const colour = over(channels(node.tagName === 'text' ? style.fill : style.color), ground);
  const [a, b] = [light(colour), light(ground)].sort((x, y) => y - x);
  const ratio = (a + 0.05) / (b + 0.05);
  count += 1;
  if (ratio < 4.5) bad.push(`${walker.currentNode.data.trim()} ${ratio.toFixed(2)} ${node.className}`);
}
return [count, bad];
"""
SHAPES = CONTRAST.partition("const bad")[0] + r"""
const ratio = (name, ground) => { const probe = document.createElement('i'); document.body.append(probe);
  probe.style.color = `var(${name})`; probe.style.backgroundColor = `var(${ground})`;
  const style = getComputedStyle(probe), [a, b] = [light(channels(style.color)), light(channels(style.backgroundColor))].sort((x, y) => y - x);
  probe.remove(); return (a + 0.05) / (b + 0.05); };
return [['--focus', '--pane'], ['--focus', '--bg'], ['--edge', '--pane'], ['--fill', '--pane'], ['--hole', '--pane'], ['--alarm', '--pane'], ['--move', '--move-bg'],
  ['--link', '--pane'], ['--warn', '--warn-bg']].filter(([name, ground]) => ratio(name, ground) < 3).map(String);
"""
# What has no name for a screen reader.
NAMES = r"""
const named = (node) => {
  const by = (node.getAttribute('aria-labelledby') ?? '').split(' ').map((id) => document.getElementById(id)?.textContent ?? '').join(' ');
  const label = [...(node.labels ?? [])].map((one) => one.textContent).join(' ');
  return (node.getAttribute('aria-label') || by.trim() || label.trim() || (/^(INPUT|SELECT|TEXTAREA)$/.test(node.tagName) ? '' : node.textContent)).trim();
};
const wanted = 'a[href], button, input, select, textarea, summary, table, form, nav, aside, [role=region], main > section, body > section, [tabindex="0"]';
return [...document.querySelectorAll(wanted)].filter((node) => node.checkVisibility()).filter((node) => {
  if (node.tagName === 'TABLE') return !(named(node) && (node.getAttribute('aria-label') || node.closest('section, aside, [role=region], details')));
  return !named(node);
}).map((node) => node.outerHTML.slice(0, 120));
"""


@pytest.mark.parametrize("theme", ["light", "dark"])
def test_contrast(page, theme):
    shown = page()
    scheme = {"features": [{"name": "prefers-color-scheme", "value": theme}]}
    shown.driver.execute_cdp_cmd("Emulation.setEmulatedMedia", scheme)
    try:
        shown.open("#RYR6")
        shown.choose("#role", "ATC")
        shown.says("#p-flight form", "Kind")
        shown.server.post("TOBT,DLH1,2025-03-10T06:20Z", Cdm_Role="AO")
        shown.until("return document.querySelectorAll('tr.moved').length >= 4")
        count, bad = shown.js(CONTRAST)
        assert count > 100 and bad == []
        shown.js("document.documentElement.classList.add('is-lost')")
        assert shown.js(CONTRAST)[1] == []
        shown.js("document.documentElement.classList.remove('is-lost')")
        shown.js("location.hash = '#EZY7'")
        shown.says("#f-warnings", "BLOCKED")
        assert shown.js(CONTRAST)[1] == []
        shown.open("#what-if")
        shown.js("document.querySelector('#scenario').value = 'SCENARIO,OPEN-0630\\nOPEN,09,2025-03-10T06:30Z,2025-03-10T06:50Z'")
        shown.click("#p-what-if form button")
        shown.says("#rw-09 + .scroll .wi", "RYR6*")
        assert shown.js(CONTRAST)[1] == []
        shown.click("#b-pictures")
        shown.says("#picture", "OPEN-0630")
        assert shown.js(CONTRAST)[1] == []
        # Each kind of warning, each letter, a reply that is refused, a fault, and what is said of the clock and of the log.
        shown.js("""document.querySelector('#warnings ul').innerHTML = ['OVERDUE', 'MISSED', 'BLOCKED', 'EDGE', 'PAST', 'AHEAD', 'FULL', 'SHUT', 'other', 'none']
            .map((kind) => `<li class="w ${kind}"><b>${kind}</b> <em>new</em> <a href="#A">A</a> 06:00 <button>+2</button></li>`).join('');
            document.querySelector('#wi-flights').innerHTML = [...'INCXSR'].map((letter) => `<tr><td><b class="k${letter}">${letter}</b></td></tr>`).join('')
              + '<tr class="moved"><td class="mv">06:20</td><td><b class="tag">EDGE</b> <b class="refused">refused</b> <small>AO</small></td></tr>';
            for (const id of ['no-clock', 'stale', 'wi-fault']) { const e = document.getElementById(id); e.hidden = false; e.textContent = 'words'; }
            for (const e of document.querySelectorAll('.fault')) { e.hidden = false; e.textContent = 'words'; }""")
        assert shown.js(CONTRAST)[1] == []
        shown.js("location.hash = '#sign-in'; document.querySelector('#sign-fault').hidden = false; document.querySelector('#sign-fault').textContent = 'wrong'")
        shown.until("return document.querySelector('#sign-fault').checkVisibility()")
        assert shown.js(CONTRAST)[1] == []
        # What has no text: the ring of the focus, blocks, edges, bars; 3 is enough.
        assert shown.js(SHAPES) == []
        assert (shown.js("return getComputedStyle(document.body).backgroundColor") == "rgb(14, 18, 22)") == (theme == "dark")
    finally:
        shown.driver.execute_cdp_cmd("Emulation.setEmulatedMedia", {"features": []})


def test_every_control_has_a_name(page):
    shown = page().open()
    assert shown.js(NAMES) == []
    shown.choose("#role", "ATC")
    shown.until("return document.querySelector('#b-send').hidden === false")
    for path in ("#RYR6", "#what-if", "#send", "#sign-in"):
        shown.js("location.hash = arguments[0]", path)
        shown.until("return [...document.querySelectorAll('.panel')].filter((p) => !p.hidden).length === 1")
        shown.until("return document.querySelectorAll('.panel:not([hidden]) form').length > 0")
        assert shown.js(NAMES) == [], path


def tree(shown):
    """What the browser tells a screen reader: role and name of each node that isn't ignored."""
    nodes = shown.driver.execute_cdp_cmd("Accessibility.getFullAXTree", {})["nodes"]
    return [(node["role"]["value"], node.get("name", {}).get("value", "").strip()) for node in nodes if not node.get("ignored") and "role" in node]


NAMED = {"button", "link", "textbox", "combobox", "searchbox", "listbox", "DisclosureTriangle", "table", "form", "region", "navigation", "complementary",
         "search", "columnheader", "rowheader", "image", "option", "MenuListPopup", "heading"} - {"MenuListPopup"}


def test_what_a_screen_reader_is_told(page):
    """By the browser's own tree: whatever can be used or jumped to has a name, and the tables are tables with rows and heads."""
    shown = page().open()
    shown.choose("#role", "ATC")
    shown.until("return document.querySelector('#b-send').hidden === false")
    for path in ("", "#RYR6", "#what-if", "#send"):
        shown.js("location.hash = arguments[0]", path)
        shown.until("return [...document.querySelectorAll('.panel')].filter((p) => !p.hidden).length === (arguments[0] ? 1 : 0)", path)
        if path == "#RYR6":
            shown.says("#waits", "CLOSURE")
        told = tree(shown)
        assert [role for role, name in told if role in NAMED and not name] == [], path
        roles = [role for role, _ in told]
        assert {"banner", "navigation", "main", "search", "status"} <= set(roles)
        if not path:
            # Blocked, Next, All's two groups, and a band for each runway.
            assert roles.count("table") == 6 and roles.count("rowheader") >= 2 + 4 + 7 + 4 and roles.count("columnheader") >= 5 + 10 + 20
            assert ("heading", "Next start-ups 4 60 min, UTC") in told and ("button", "Seen") in told


def test_long_tables_are_tables(page):
    """A group of more than 100 flights is in tables of its own with the same heads, each with all its rows: nothing is left out of sight."""
    names = [f"X{number:03}" for number in range(450)]
    day = {"AP": [f"FLT,{name},5" for name in names], "ATC": [f"RWY,{name},27L" for name in names]}
    shown = page(day=day).open()
    shown.until("return document.querySelectorAll('#all tbody tr').length === 450")
    shown.js("for (const e of document.querySelectorAll('.chunk')) e.style.contentVisibility = 'visible'")
    told = [role for role, _ in tree(shown)]
    assert told.count("rowheader") >= 450 + 450 and told.count("columnheader") >= 30
    assert shown.js("return [...document.querySelectorAll('#all .chunk')].map((c) => c.querySelectorAll('thead th[scope=col]').length)") == [10] * shown.js(
        "return document.querySelectorAll('#all .chunk').length")


def test_landmarks_and_tables(page):
    shown = page().open()
    assert shown.js("return ['header', 'nav', 'main', '[role=search]', 'h1'].map((s) => document.querySelectorAll(s).length)") == [1, 1, 1, 1, 1]
    assert shown.js("return document.documentElement.lang") == "en"
    tables = shown.js("""return [...document.querySelectorAll('#next table, #blocked table, #all table, .band table')].filter((t) => t.checkVisibility())
        .map((t) => [getComputedStyle(t).display, [...t.querySelectorAll('thead th')].every((h) => h.scope === 'col'),
          [...t.tBodies].every((b) => [...b.rows].every((r) => r.querySelectorAll('th[scope=row]').length === 1 && getComputedStyle(r).display === 'table-row'))])""")
    assert len(tables) == 6 and all(table == ["table", True, True] for table in tables)
    # The heads' levels have no gaps.
    levels = shown.js("return [...document.querySelectorAll('h1, h2, h3')].filter((h) => h.checkVisibility()).map((h) => Number(h.tagName[1]))")
    assert levels[0] == 1 and all(after - before <= 1 for before, after in zip(levels, levels[1:]))


def test_one_live_region_that_doesn_t_flood(page):
    """One that waits until a screen reader has ended; beside it an alert, which is empty while there is a connection."""
    shown = page().open()
    assert shown.js("return [...document.querySelectorAll('[aria-live], [role=status], [role=alert], [role=log]')].map((e) => [e.role, e.textContent !== ''])") == [
        ["status", True], ["alert", False]]
    shown.js("""window.writes = []; new MutationObserver(() => window.writes.push(performance.now()))
        .observe(document.querySelector('#conn'), {childList: true, subtree: true, characterData: true});""")
    began = time.monotonic()
    for minute in range(10, 22):
        shown.server.post(f"TOBT,DLH1,2025-03-10T06:{minute}Z", Cdm_Role="AO")
        shown.until("return document.querySelector('#next tr[data-flight=DLH1]').innerText.includes(arguments[0])", f"06:{minute}")
    assert len(shown.js("return window.writes")) <= 2 + (time.monotonic() - began) // 10
    shown.says("#conn", "sent TOBT DLH1 06:21", seconds=10 + WAIT)


def test_by_keyboard_alone(page):
    shown = page().open()
    where = "const a = document.activeElement; return [a.id || a.name || a.textContent.trim(), a.tagName]"
    visible = "const s = getComputedStyle(document.activeElement); return s.outlineStyle !== 'none' && parseFloat(s.outlineWidth) >= 2"
    shown.keys(Keys.TAB)
    assert shown.js(where)[0] == "Next start-ups" and shown.js(visible)
    order = []
    for _ in range(40):
        shown.keys(Keys.TAB)
        if shown.js(where)[1] == "BODY":  # behind the last one
            break
        order.append(shown.js(where)[0])
        assert shown.js(visible), order
    # Header, warnings, runways, blocked, next, filter, all: as they are read.
    at = [order.index(name) for name in ("role", "b-what-if", "b-picture", "b-theme", "EZY7", "KLM5", "seen", "BAW3", "RYR6", "flight", "runway", "op")]
    assert at == sorted(at), order
    shown.js("document.querySelector('#next tr[data-flight=DLH2] a').focus()")
    shown.keys(Keys.ENTER)
    until(lambda: shown.js(where)[0] == "h-f")
    shown.keys(Keys.TAB)
    assert shown.js(where)[0] == "Close"
    shown.keys(Keys.ENTER)
    until(lambda: shown.js(where)[0] == "DLH2")
    # The focus stays on its flight while rows move.
    shown.server.post("TOBT,DLH2,2025-03-10T06:45Z", Cdm_Role="AO")
    shown.until("return document.querySelector('#next tbody tr:last-child').dataset.flight === 'DLH2'")
    assert shown.js(where)[0] == "DLH2"
    shown.js("document.querySelector('.skip').focus()")
    shown.keys(Keys.ENTER)
    assert shown.js("return location.hash") == "#h-next"


def test_a_panel_that_covers_the_page(page):
    """On a narrow screen nothing below the panel has the focus, and a lost connection is said over it."""
    shown = page()
    size(shown.driver, 320, 640)
    shown.open("#RYR6")
    shown.says("#waits", "CLOSURE")
    for _ in range(6):
        shown.keys(Keys.TAB)
        assert shown.js("const a = document.activeElement; return a === document.body || a.closest('#p-flight') !== null")
    shown.allowed += ["ERR_CONNECTION_REFUSED", "ERR_INCOMPLETE_CHUNKED_ENCODING", "ERR_CONNECTION_RESET", "ERR_EMPTY_RESPONSE"]
    shown.server.kill()
    shown.says("#conn", "CONNECTION LOST")
    seen = "const r = document.querySelector('#conn').getBoundingClientRect(); const at = document.elementFromPoint(r.left + 20, r.top + r.height / 2);" \
        "return at !== null && at.closest('.conn') !== null"
    assert shown.js(seen)
    size(shown.driver, 1280, 900)
    shown.until("return !document.querySelector('#next').inert && !document.querySelector('nav').inert")


def test_in_print_and_in_forced_colours(page):
    """Words and frames stay: the late one says so, warnings their kind, a closed cell that it is closed."""
    shown = page().open()
    words = lambda: (shown.row("next", "RYR6")[8], shown.texts("#warnings li")[0], "closed" in shown.text("#rw-09 + .scroll"))
    try:
        for media in ({"media": "print"}, {"media": "", "features": [{"name": "forced-colors", "value": "active"}]}):
            shown.driver.execute_cdp_cmd("Emulation.setEmulatedMedia", media)
            assert words() == ("late 28", "BLOCKED 1 of 2 EZY7 with a TOBT or CTOT", True), media
            assert shown.js("return parseFloat(getComputedStyle(document.querySelector('#warnings .BLOCKED')).borderLeftWidth)") >= 1
        shown.driver.execute_cdp_cmd("Emulation.setEmulatedMedia", {"media": "print", "features": [{"name": "prefers-color-scheme", "value": "dark"}]})
        assert shown.js("return getComputedStyle(document.querySelector('#next')).color") == "rgb(18, 23, 28)"
    finally:
        shown.driver.execute_cdp_cmd("Emulation.setEmulatedMedia", {"media": "", "features": []})


def test_nothing_moves_by_itself(page):
    shown = page().open()
    shown.server.post("TOBT,DLH1,2025-03-10T06:20Z", Cdm_Role="AO")
    shown.until("return document.querySelectorAll('#next tr.moved').length >= 2")
    assert shown.js("return document.getAnimations().length") == 0
    assert shown.js("return [...document.querySelectorAll('*')].every((e) => { const s = getComputedStyle(e); return s.animationName === 'none' && s.transitionDuration === '0s'; })")


# From two metres: rem at 1280 and on a wall.
SIZES = {".now time": (2.5, 2.5), "header dd": (1.75, 1.75), "#next .big b": (1.25, 1.625), "#next th a": (1, 1.25), ".band h3": (1.25, 1.25),
         "#next": (1, 1.125), "body": (1, 1)}


@pytest.mark.parametrize("width,root", [(1280, 16), (1920, 16), (3840, 32)])
def test_type(page, width, root):
    shown = page()
    size(shown.driver, width, 1080)
    shown.open()
    sizes = shown.js("return arguments[0].map((s) => parseFloat(getComputedStyle(document.querySelector(s)).fontSize))", list(SIZES))
    assert shown.js("return parseFloat(getComputedStyle(document.documentElement).fontSize)") == root
    assert [found / root for found in sizes] == [wanted[width >= 1800] for wanted in SIZES.values()]
    # Figures have one width; rows have one height, whatever is said in them.
    assert "tabular-nums" in shown.js("return getComputedStyle(document.body).fontVariantNumeric")
    heights = "return [...new Set([...document.querySelectorAll('#next tbody tr')].map((r) => Math.round(r.getBoundingClientRect().height)))]"
    before = shown.js(heights)
    shown.server.post("TOBT,DLH1,2025-03-10T06:20Z", Cdm_Role="AO")
    shown.says('#next tr[data-flight="DLH2"] .why', "was 06:05: TOBT DLH1 06:20, AO ")
    after = shown.js(heights)
    assert max(before + after) - min(before + after) <= 2


def test_a_row_isn_t_moved_under_a_finger(page):
    shown = page().open()
    order = "return [...document.querySelectorAll('#next tbody tr')].map((r) => r.dataset.flight).join()"
    shown.js("document.querySelector('#next').dispatchEvent(new PointerEvent('pointerdown', {bubbles: true}))")
    before = shown.js(order)
    shown.server.post("TOBT,BAW3,2025-03-10T06:20Z", Cdm_Role="AO")
    shown.until("return document.querySelector('#next tr[data-flight=BAW3]').innerText.includes('06:20')")
    assert shown.js(order) == before
    shown.js("dispatchEvent(new PointerEvent('pointerup', {bubbles: true}))")
    shown.until("return [...document.querySelectorAll('#next tbody tr')].map((r) => r.dataset.flight).join() === 'DLH1,DLH2,BAW3,RYR6'")


def test_what_is_written_under_a_finger_is_new(page):
    """Rows stay where they are, but each says what the day is, also one of a flight that isn't blocked any more."""
    shown = page().open()
    shown.js("window.down = () => dispatchEvent(new PointerEvent('pointerdown', {bubbles: true})); down(); window.finger = setInterval(down, 200)")
    shown.server.post(["CTOT,EZY7,2025-03-10T06:35Z", "CTOT,EZY7,-"], Cdm_Role="NM")
    shown.until("return document.querySelector('#blocked tr[data-flight=EZY7]').innerText.replace(/\\s+/g, ' ').includes('– 27L 07:00 –')")
    shown.js("clearInterval(finger); dispatchEvent(new PointerEvent('pointerup', {bubbles: true}))")
    shown.until("return document.querySelector('#blocked tr[data-flight=EZY7]') === null")


def test_what_one_reads_stays_where_it_is(page):
    day = {"AP": [f"FLT,X{n:03},5" for n in range(80)], "ATC": [f"RWY,X{n:03},27L" for n in range(80)] + ["CLOCK,2025-03-10T05:50Z"],
           "AO": [f"TOBT,X{n:03},2025-03-10T{7 + n // 10:02}:{n % 10 * 5:02}Z" for n in range(80)]}
    shown = page(day=day).open()
    shown.js("document.querySelector('#all tr[data-flight=X040]').scrollIntoView({block: 'start'})")
    top = "return document.querySelector('#all tr[data-flight=X045]').getBoundingClientRect().top"
    before = shown.js(top)
    shown.server.post("TOBT,X070,2025-03-10T06:55Z", Cdm_Role="AO")
    shown.until("const r = document.querySelector('#all tr[data-flight=X000]'); return r.previousElementSibling?.dataset.flight === 'X070'")
    assert abs(shown.js(top) - before) < 2


def test_what_one_reads_stays_where_a_table_is_split(page):
    """A hundred flights are one table. One more makes it two, and the browser doesn't lay out what it hasn't seen yet."""
    names = [f"X{n:03}" for n in range(100)]
    day = {"AP": [f"FLT,{name},5" for name in ["LAST", *names]], "ATC": [f"RWY,{name},27L" for name in ["LAST", *names]] + ["CLOCK,2025-03-10T05:50Z"],
           "AO": [f"TOBT,{name},2025-03-10T{7 + n // 10:02}:{n % 10 * 5:02}Z" for n, name in enumerate(names)]}
    shown = page(day=day).open()
    tables = "return document.querySelectorAll('#all [data-status=PLANNED] table').length"
    shown.js("document.querySelector('#all tr[data-flight=X090]').scrollIntoView({block: 'end'})")
    top = "return document.querySelector('#all tr[data-flight=X085]').getBoundingClientRect().top"
    before = shown.js(top)
    assert shown.js(tables) == 1
    shown.server.post("TOBT,LAST,2025-03-10T06:55Z", Cdm_Role="AO")
    shown.until(tables + " === 2")
    shown.until("return document.querySelector('.seen') === null")
    assert abs(shown.js(top) - before) < 2


@pytest.mark.parametrize("width,height", [(320, 640), (700, 900), (1280, 900), (1920, 1080), (3840, 2160)])
def test_sizes(page, width, height):
    shown = page()
    size(shown.driver, width, height)
    shown.open()
    # Nothing is wider than the screen; the runways' bands scroll in their own boxes.
    assert shown.js("return document.documentElement.scrollWidth") <= width
    assert len(shown.flights("next")) == 4 and shown.text(".now").startswith("NOW UTC 05:50")
    small = shown.js("""return [...document.querySelectorAll('td, th, p, a, button, summary, label, small, dt, dd')]
        .filter((e) => e.checkVisibility() && e.innerText.trim()).map((e) => parseFloat(getComputedStyle(e).fontSize)).reduce((a, b) => Math.min(a, b))""")
    assert small >= (12 if width < 1920 else 12 * width / 1920)
    if width <= 700:
        # Fingers: rows of 44 px, controls of 40 px.
        assert shown.js("""return [...document.querySelectorAll('button, .btn, input, select, .skip')].filter((e) => e.checkVisibility())
            .filter((e) => e.getBoundingClientRect().height < 39.5).map((e) => e.outerHTML)""") == []
        assert shown.js("return Math.min(...[...document.querySelectorAll('#next tbody tr')].map((r) => r.getBoundingClientRect().height))") >= 44
        assert shown.texts("#next thead th") == ["TSAT", "Flight", "Rwy", "CTOT", "Delay"]
    shown.js("location.hash = '#RYR6'")
    shown.says("#waits", "CLOSURE")
    assert shown.js("return document.documentElement.scrollWidth") <= width
    assert shown.js("const r = document.querySelector('#p-flight').getBoundingClientRect(); return r.left >= 0 && r.right <= innerWidth + 1")


# The page's own, those that may stand in for it, and a wide one, in which times of the second day and delays of four digits may be cut.
FONTS = ["", "Liberation Sans", "DejaVu Sans Condensed", "DejaVu Sans"]


@pytest.mark.parametrize("width", [320, 700, 701, 861, 1100, 1219, 1220, 1280, 1899, 1900, 3840])
def test_cells_hold_their_texts(page, width):
    """The widest that may be there, in narrow and in wide fonts: no text runs into the next cell."""
    names = ["WMM8888", "WWWW888", "MMM9999", "BAW70AC"]
    day = {"AP": [f"FLT,{name},5" for name in names] + [f"STAND,{name},WM888" for name in names], "ATC": [f"RWY,{name},27L" for name in names]
           + ["CLOSE,27L,2025-03-10T00:00Z,2025-03-11T22:00Z", "CLOCK,2025-03-10T05:50Z"], "AO": [f"TOBT,{name},2025-03-10T06:00Z" for name in names]}
    day["AP"] += ["FLT,WWM8888,5", "FLT,WMW8888,5"]
    day["ATC"] += ["RWY,WMW8888,27L"]
    day["NM"] = ["CTOT,WMW8888,2025-03-11T12:00Z"]
    day["AO"] += ["CNL,WWM8888", "TOBT,WMW8888,2025-03-11T11:00Z"]
    shown = page(day=day)
    size(shown.driver, width, 900)
    shown.open()
    shown.says("#all", "cancelled")
    # One that just was placed and now is blocked says its rule and what it was; one in the next minutes its cause and what moved it.
    shown.server.post("CTOT,WWWW888,2025-03-11T23:00Z", Cdm_Role="NM")
    shown.server.post("CTOT,WWWW888,2025-03-10T12:00Z", Cdm_Role="NM")
    shown.says('#all tr[data-flight="WWWW888"]', "CLOSURE")
    for font in FONTS:
        shown.js("document.documentElement.style.fontFamily = arguments[0] && `'${arguments[0]}'`", font)
        wide = shown.js("""return [...document.querySelectorAll('#next th, #next td, #all th, #all td, #blocked td, .facts dd')]
            .filter((c) => c.checkVisibility() && c.scrollWidth > c.clientWidth + 1 && !(c.matches('.moved td:nth-child(3)') && getComputedStyle(c).textOverflow === 'ellipsis'))
            .filter((c) => arguments[0] !== 'DejaVu Sans' || !/^11 |\\d{4}$/.test(c.innerText)).map((c) => `${c.className} ${c.innerText} ${c.scrollWidth}/${c.clientWidth}`)""", font)
        assert wide == [], font
        # A name leaves a gap to the next column.
        assert font == "DejaVu Sans" or shown.js("""return [...document.querySelectorAll('#next tbody th a, #all tbody th a, #blocked tbody th a')].filter((a) => a.checkVisibility())
            .filter((a) => a.getBoundingClientRect().right > a.parentElement.getBoundingClientRect().right - 1).map((a) => a.textContent)""") == [], font
        assert shown.js("return document.documentElement.scrollWidth") <= width, font
