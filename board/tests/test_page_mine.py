"""My flights: a desk that sends for its own alone sees them first; on a phone they are cards with a TOBT to be put on or back. The day by hand is in
browser.py."""
import json

from browser import size
from selenium_or_none import Keys
from test_page_desks import DENIED, sign_in
from test_page_eye import BROKEN, CLIPPED, SPACED
from test_page_look import TOKENS, colour
from test_page_rules import TARGETS

OWN = {"atc": 'role = "ATC"\nclock = true', "ap": 'role = "AP"', "ao": 'role = "AO"', "nm": 'role = "NM"', "ground": 'role = "GH"\nflights = ["DLH", "EZY"]'}


def opened(page, width=1280, path=""):
    """The page of the desk that has DLH1, DLH2 and EZY7."""
    shown = page(OWN)
    shown.allowed += DENIED
    size(shown.driver, width, 740)
    shown.open(path, ready=False)
    sign_in(shown, "ground")
    shown.is_ready()
    return shown


def test_own_flights_are_first(page):
    """Tables, totals, warnings and causes are of its own flights, until it asks for all."""
    shown = opened(page)
    assert shown.flights("next") == ["DLH1", "DLH2"] and shown.flights("blocked") == ["EZY7"]
    shown.says("#filtered", "Filter: my flights, DLH or EZY. 3 of 7 flights: 2 placed, 0 late, 1 blocked, 5 minutes of delay, 5 at most.")
    shown.says("#f-warned", "1 warning: BLOCKED EZY7")
    shown.js("document.querySelector('#causes').open = true")
    shown.says("#causes", "TOTAL")
    assert [text.split(" ")[:2] for text in shown.texts("#causes tbody tr")] == [["DLH", "5"], ["EZY", "0"], ["TOTAL", "5"]]
    shown.click("#show-all")
    shown.until("return document.querySelectorAll('#next tbody tr').length === 4")
    assert shown.js("return location.search") == "?whose=all" and shown.texts("#causes tbody tr:last-child")[0].startswith("TOTAL 46")
    shown.choose("#filter [name=whose]", "my flights")
    shown.until("return document.querySelectorAll('#next tbody tr').length === 2")


def test_a_card_has_a_main_button_while_a_tobt_is_put_in(page):
    """One thing at a time is filled: nothing on cards that nobody has touched, then the button of the card that somebody has."""
    shown = opened(page, 360)
    filled = """return [...document.querySelectorAll('#mine form button:not([type])')].filter((one) => one.checkVisibility()
        && getComputedStyle(one).backgroundColor === arguments[0]).map((one) => one.closest('li').dataset.flight)"""
    link = colour(shown, "link")
    shown.until("return document.querySelectorAll('#mine form button:not([type], :disabled, [aria-disabled=true])').length === 3")
    assert shown.js(filled, link) == []
    shown.click("#mine li[data-flight=DLH1] [aria-label='TOBT 5 minutes later']")
    assert shown.js(filled, link) == ["DLH1"]


LATE = """const real = fetch; window.fetch = async (...words) => {
    if (String(words[0]).includes('/v1/kinds')) await new Promise((done) => setTimeout(done, 3000));
    return real(...words); }"""


def test_kinds_that_come_last(page):
    """A card takes a TOBT as soon as it is known what the desk may send."""
    shown = page(OWN)
    given = shown.driver.execute_cdp_cmd("Page.addScriptToEvaluateOnNewDocument", {"source": LATE})
    try:
        shown.allowed += DENIED
        size(shown.driver, 360, 740)
        shown.open("", ready=False)
        sign_in(shown, "ground")
        shown.until("return document.querySelectorAll('#mine li').length === 3")
        shown.until("return document.querySelector('#mine form').getClientRects().length > 0")
    finally:
        shown.driver.execute_cdp_cmd("Page.removeScriptToEvaluateOnNewDocument", {"identifier": given["identifier"]})


def test_cards_on_a_phone(page):
    """A TOBT is put on by presses, or typed on a number pad; its reply stands in the card."""
    shown = opened(page, 360)
    shown.until("return document.querySelectorAll('#mine li').length === 3")
    assert shown.texts("#mine h3") == ["DLH1 27L", "DLH2 27L, stand A12", "EZY7 27L"] and shown.texts("#mine .start") == ["06:00 in 10", "06:05 in 15", "blocked CTOT"]
    assert shown.text('#mine li[data-flight="DLH2"] p:not(.start)') == "rate delay 5" and "BLOCKED" in shown.text('#mine li[data-flight="EZY7"]')
    field = '#mine li[data-flight="DLH1"] input'
    assert shown.js("const one = document.querySelector(arguments[0]); return [one.inputMode, one.value]", field) == ["numeric", "06:00"]
    assert shown.js("return parseFloat(getComputedStyle(document.querySelector('#mine .tsat')).fontSize)") == 40
    for label in ("10 minutes later", "15 minutes later", "5 minutes earlier"):
        shown.click(f'#mine li[data-flight="DLH1"] [aria-label="TOBT {label}"]')
    assert shown.js("return document.querySelector(arguments[0]).value", field) == "06:20"
    shown.server.post("PRIO,BAW3,4", "atc")
    shown.says(".now", "05:50")
    assert shown.js("return document.querySelector(arguments[0]).value", field) == "06:20"  # what was put in stays
    shown.click('#mine li[data-flight="DLH1"] form button:not([type])')
    shown.says('#mine li[data-flight="DLH1"] .reply', "Accepted. Start-up 06:20.")
    assert json.loads(shown.server.get("/v1/records?flight=DLH1", "atc").body.splitlines()[-1])["line"] == "TOBT,DLH1,2025-03-10T06:20Z"
    shown.until("return document.querySelector('#mine li').dataset.flight === 'DLH2'")
    assert shown.js(CLIPPED) == [] and shown.js(BROKEN) == []
    shown.js(SPACED)
    shown.until("return document.documentElement.classList.contains('l-spaced')")
    assert shown.js(CLIPPED) == [] and shown.js(BROKEN) == []


def test_late_is_amber_on_a_card(page):
    """As it is in the tables: DLH1 has to wait until 06:25 for its start-up."""
    shown = opened(page, 360)
    shown.until("return document.querySelectorAll('#mine li').length === 3")
    assert shown.js("return document.querySelectorAll('#mine .late').length") == 0
    shown.server.post("CLOSE,27L,2025-03-10T06:00Z,2025-03-10T06:40Z", "atc")
    shown.says('#mine li[data-flight="DLH1"]', "late 25")
    words = "return [...document.querySelectorAll('#mine li[data-flight=DLH1] p:not(.start) > b:not(.cause)')].map((one) => [one.textContent, getComputedStyle(one).color])"
    assert shown.js(words) == [["late", colour(shown, "warn")], ["25", colour(shown, "warn")]]


def test_what_has_left_is_last(page):
    """It waits for nothing that a handler could send. DLH1, at 06:00, is first until then."""
    shown = opened(page, 360)
    shown.until("return document.querySelectorAll('#mine li').length === 3")
    shown.server.post("OFF,DLH1,2025-03-10T05:50Z", "atc")
    shown.until("return [...document.querySelectorAll('#mine li')].map((one) => one.dataset.flight).join() === 'DLH2,EZY7,DLH1'")
    assert not shown.find('#mine li[data-flight="DLH1"] form').is_displayed()


def test_the_first_card_is_high(page):
    """Above it is what the board says of all, in less than half of a phone's screen; also where no CLOCK came."""
    shown = opened(page, 360)
    shown.until("return document.querySelectorAll('#mine li').length === 3")
    shown.js("document.querySelector('#no-clock').style.setProperty('display', 'block', 'important')")
    assert shown.js("return document.querySelector('#mine li').getBoundingClientRect().top") < 320


def test_a_card_says_the_effect_of_its_tobt(page):
    """Before it is sent: DLH2 has the place of DLH1 then. A time in the past is asked about once, and what was sent is taken back."""
    shown = opened(page, 360)
    shown.until("return document.querySelectorAll('#mine li').length === 3")
    card = '#mine li[data-flight="DLH1"]'
    before = len(shown.server.records("atc"))
    for _ in range(2):
        shown.click(f'{card} [aria-label="TOBT 10 minutes later"]')
    shown.says(f"{card} .effect", "Its effect: start-up 06:20 (was 06:00), moves DLH2; −5 min of delay in all.")
    assert len(shown.server.records("atc")) == before and not shown.find(f"{card} .hint").is_displayed()
    shown.click(f"{card} form button:not([type])")
    shown.says(f"{card} .reply", "Accepted. Start-up 06:20.")
    shown.says(f"{card} .undo", "Take back: TOBT DLH1 06:00 Its effect: start-up 06:00 (was 06:20), moves DLH2; +5 min of delay in all.")
    for rule in (TARGETS, CLIPPED, BROKEN, TOKENS):
        assert shown.js(rule) == []
    shown.click(f"{card} .back")
    shown.says(f"{card} .reply", "Taken back. Start-up 06:00.")
    shown.until("return document.querySelector(arguments[0]).value === '06:00'", f"{card} input")
    before = len(shown.server.records("atc"))
    shown.type(f"{card} input", "0540")
    shown.click(f"{card} form button:not([type])")
    shown.says(f"{card} .reply", "Look again. 05:40 is 10 min before NOW, 05:50. Press Send TOBT even so if it is meant.")
    assert len(shown.server.records("atc")) == before and shown.text(f"{card} form button:not([type])") == "Send TOBT even so"


def test_the_bar_at_the_bottom(page):
    shown = opened(page, 360)
    shown.until("return !document.querySelector('#mine').hidden")
    assert shown.texts("#tabs button") == ["Mine", "Next", "Runways", "More"]
    for word, box in (("h-next", "#next"), ("h-r", "#runways"), ("h-a", "#all"), ("h-m", "#mine")):
        shown.click(f"#tabs [data-to={word}]")
        assert shown.js("return [document.activeElement.id, Math.abs(document.querySelector(arguments[0]).getBoundingClientRect().top) < 400]", box) == [word, True]
    size(shown.driver, 700, 740)
    shown.until("return !document.querySelector('#tabs').checkVisibility() && !document.querySelector('#mine').checkVisibility()")


def test_a_notice_when_a_tsat_of_mine_moves(page):
    """In the window's name, and as a notice of the system where that is wished and allowed; not of another's flight, nor of what one sent oneself."""
    shown = opened(page)
    shown.js("""window.told = []; window.Notification = class extends EventTarget { static permission = 'default';
        static async requestPermission() { window.Notification.permission = 'granted'; } constructor(text) { super(); window.told.push(text); } };""")
    shown.server.post("TOBT,BAW3,2025-03-10T06:25Z", "ao")
    shown.says('#all tr[data-flight="BAW3"]', "06:25")
    shown.until("return document.title.startsWith('DLH2 06:00, was 06:05 · 05:50')")
    assert shown.js("return window.told") == []
    shown.js("document.querySelector('#b-notify').click()")
    shown.until("return document.querySelector('#b-notify').textContent === 'No notices'")
    shown.server.post("TOBT,BAW3,2025-03-10T06:00Z", "ao")
    shown.until("return document.title.startsWith('DLH2 06:05, was 06:00 · ')")
    assert shown.js("return window.told") == ["TSAT DLH2 06:05, was 06:00"]
    shown.server.post("TOBT,DLH2,2025-03-10T06:40Z", "ground")
    shown.says('#all tr[data-flight="DLH2"]', "06:40")
    assert shown.js("return window.told.length") == 1


def test_a_desk_of_all_flights_has_no_cards(page):
    shown = page().open()
    assert not shown.find("#mine").is_displayed() and not shown.find("#whose").is_displayed() and not shown.find("#filtered").is_displayed()
    shown.keys(Keys.ESCAPE)
    assert not any(address.endswith("mine.js") for address in shown.requests())
