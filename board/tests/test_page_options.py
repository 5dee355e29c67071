"""What could help a flight, on the page: asked once, as somebody presses; each record as a sentence with what it costs, put into a form, never sent.
DLH20T of examples/sixty_flights is blocked by RATE at its CTOT of 07:00; Of nine records that are tried five help. DLH2 of the day by hand (browser.py) is 5 minutes late, and KLM5 has no TOBT."""
import itertools

import pytest
from browser import fill, objects, size
from conftest import ROOT
from selenium_or_none import Keys
from test_page_eye import BROKEN, CLIPPED, SPACED
from test_page_rules import RULES, TARGETS

ASKED = "return performance.getEntriesByType('resource').filter((one) => one.name.includes('/v1/options/')).length"
SENTENCES = ["Runway 18 instead of 25C", "Open 25C from 06:55 to 07:00", "Priority 4 instead of 5", "One more take-off on 25C from 07:00 to 07:10", "No CTOT any more"]
GAINS = [f"Take-off {time}, no longer blocked." for time in ("06:58", "07:00", "07:00", "07:10", "07:11")]


@pytest.fixture
def sixty(page):
    """A page over the example's day, with a role."""
    def make(role="ATC", path=""):
        day = ROOT / "examples/sixty_flights"
        shown = page(day={}, airport=(day / "airport.csv").read_text())
        records = [line.partition(",")[::2] for line in (day / "feed.csv").read_text().splitlines()]
        for sender, lines in itertools.groupby(records, lambda record: record[0]):
            shown.server.post([line for _, line in lines], Cdm_Role=sender)
        return speaks(shown.open(path), role)
    return make


def speaks(shown, role):
    shown.choose("#role", role)
    shown.until("return document.querySelector('#b-send').hidden === false")
    return shown


def lines(shown):
    return [record["line"] for record in shown.server.records()]


def cost(one, now):
    """What a record costs, beside the day as it is."""
    words = []
    for name, unit in (("delay", " min"), ("late", ""), ("blocked", "")):
        more = one[name] - now[name]
        words.append(f"{name} {'+' if more > 0 else '−'}{abs(more)}{unit}" if more else f"{name} as now")
    return f"In all: {', '.join(words)}; {one['moved']} {'flight moves' if one['moved'] == 1 else 'flights move'}."


def is_pressed(shown, button):
    """A button of the panel, in a part of it that is in sight."""
    shown.until("return document.querySelector(arguments[0])?.getClientRects().length > 0", button)
    shown.js("document.querySelector(arguments[0]).scrollIntoView({block: 'center'})", button)
    shown.click(button)


def is_answered(shown, words):
    is_pressed(shown, "#b-options")
    shown.says("#o-head", words)


def test_what_could_help_a_blocked_flight(sixty):
    """Nothing is asked before the press, and once by it. The best is first, as the program says."""
    shown = sixty(path="#DLH20T")
    shown.says("#p-flight form", "Kind")
    assert shown.js(ASKED) == 0
    is_answered(shown, "5 of 9 records that were tried help, the best first.")
    assert shown.texts("#f-options li b") == SENTENCES
    assert shown.texts("#f-options li p:first-of-type") == GAINS
    now, *found = objects(shown.server.get("/v1/options/DLH20T.json").body)
    assert shown.texts("#f-options li p:last-of-type") == [cost(one, now) for one in found]
    assert shown.js("return document.activeElement.id") == "o-head" and shown.js(ASKED) == 1
    # A desk of the tower may send all but the last.
    assert shown.texts("#f-options li button") == [f"Put {kind} into the form" for kind in ("RWY", "OPEN", "PRIO", "RATE", "CTOT")]
    assert shown.texts("#f-options li small") == ["only the Network Manager may send this"]
    assert shown.js("return [...document.querySelectorAll('#f-options li button')].map((b) => b.getAttribute('aria-disabled'))") == [None] * 4 + ["true"]


def test_a_press_fills_the_form_and_sends_nothing(sixty):
    """The flight's own form for its own records, the form of *Send* for those of a runway; what may not be sent fills none."""
    shown = sixty(path="#DLH20T")
    before = lines(shown)
    shown.says("#p-flight form", "Kind")
    is_answered(shown, "5 of 9")
    assert shown.text("#p-flight form code") == "RWY,DLH20T,25C"
    for at, line in ((1, "RWY,DLH20T,18"), (3, "PRIO,DLH20T,4")):
        is_pressed(shown, f"#f-options li:nth-child({at}) button")
        shown.says("#p-flight form code", line)
        assert shown.js("return document.activeElement === document.querySelector('#p-flight form .sends')")
    for at, line in ((2, "OPEN,25C,2026-01-15T06:55Z,2026-01-15T07:00Z"), (4, "RATE,25C,2026-01-15T07:00Z,2026-01-15T07:10Z,4")):
        shown.js("location.hash = '#DLH20T'")
        shown.until("return document.querySelector('#p-flight').hidden === false && document.querySelector('#f-options').hidden === false")
        is_answered(shown, "5 of 9")
        is_pressed(shown, f"#f-options li:nth-child({at}) button")
        shown.says("#p-send form code", line)
        shown.until("return document.activeElement === document.querySelector('#p-send form .sends')")
    assert lines(shown) == before


def test_who_may_send_what(sixty):
    """An operator sends none of these, the Network Manager one. Each line says who may; it is pressed for nothing."""
    shown = sixty("AO", "#DLH20T")
    is_answered(shown, "5 of 9")
    assert shown.texts("#f-options li small") == ["only the tower may send this"] * 4 + ["only the Network Manager may send this"]
    described = "return [...document.querySelectorAll('#f-options li button')].map((b) => document.getElementById(b.getAttribute('aria-describedby')).innerText)"
    assert shown.js(described) == ["only the tower may send this"] * 4 + ["only the Network Manager may send this"]
    shown.says("#p-flight form", "Kind")
    proposed = shown.text("#p-flight form code")
    shown.js("document.querySelectorAll('#f-options li button').forEach((button) => button.click())")
    assert shown.text("#p-flight form code") == proposed and shown.js("return location.hash") == "#DLH20T"
    speaks(shown, "NM")
    shown.until("return document.querySelectorAll('#f-options li small').length === 4")
    shown.says("#p-flight form", "Kind")
    is_pressed(shown, "#f-options li:nth-child(5) button")
    shown.says("#p-flight form code", "CTOT,DLH20T,-")


def test_an_answer_is_old_when_the_day_moves_on(sixty):
    """It is said of which record it was, and nothing is asked by itself."""
    shown = sixty(path="#DLH20T")
    is_answered(shown, "5 of 9")
    position = len(lines(shown))
    assert not shown.find("#o-old").is_displayed()
    fill(shown.server, {"ATC": ["PRIO,DLH20T,4"]})
    shown.says("#o-old", f"That was of record {position}, and the day has moved on.")
    assert shown.texts("#f-options li b") == SENTENCES and shown.js(ASKED) == 1
    # It isn't blocked any more, and takes off at 07:00.
    shown.says("#h-f", "planned")
    is_pressed(shown, "#o-old button")
    shown.until("return /were tried|Nothing/.test(document.querySelector('#o-head').innerText) && document.querySelector('#o-old').hidden")
    assert shown.js(ASKED) == 2 and all(text.endswith("min earlier.") for text in shown.texts("#f-options li p:first-of-type"))


def test_a_flight_that_is_late(page):
    """DLH2 takes off at 06:20 in place of 06:15; on 09 it would at 06:12. One of a flight that isn't late has no such button."""
    shown = speaks(page().open("#DLH2"), "ATC")
    is_answered(shown, "3 of 7 records that were tried help, the best first.")
    assert shown.texts("#f-options li b") == ["Runway 09 instead of 27L", "One more take-off on 27L from 06:10 to 06:20", "Priority 4 instead of 5"]
    assert shown.texts("#f-options li:first-child p") == ["Take-off 06:12, 8 min earlier.", "In all: delay −5 min, late as now, blocked as now; 1 flight moves."]
    shown.js("location.hash = '#BAW3'")
    shown.until("return document.querySelector('#h-f span').innerText === 'BAW3' && document.querySelector('#f-options').hidden")
    assert shown.text("#o-head") in ("", None) or not shown.find("#o-head").is_displayed()


def test_nothing_helps(page):
    """KLM5 has no TOBT: no priority from 0 to 4 gives it one, nor does the other runway."""
    shown = speaks(page().open("#KLM5"), "ATC")
    is_answered(shown, "Nothing that was tried helps: 6 records tried.")
    assert not shown.find("#f-options ul").is_displayed()


def test_why_there_is_no_answer(page):
    """In words; the flight that has left meanwhile, and a server that isn't there. The button asks again."""
    shown = speaks(page().open("#DLH2"), "ATC")
    shown.js("const real = window.fetch; window.fetch = (path, ...words) => real(path.includes('/options/') && window.wrong ? window.wrong : path, ...words);")
    shown.js("window.wrong = '/v1/options/NIX.json'")
    is_answered(shown, "No answer: no flight NIX.")
    shown.js("window.wrong = 'http://127.0.0.1:1/'")
    is_answered(shown, "No answer: The server isn’t reached.")
    assert shown.js("return document.querySelectorAll('#f-options li').length") == 0
    shown.js("window.wrong = null")
    is_answered(shown, "3 of 7")
    shown.allowed += ["404 (Not Found)", "ERR_CONNECTION_REFUSED", "Content Security Policy", "ERR_UNSAFE_PORT", "violates"]


def test_one_press_from_a_warning(sixty):
    """From the row in *Blocked*, and from *What to do*: the flight's panel is opened, and it is asked at once."""
    shown = sixty()
    shown.click('#blocked tr[data-flight=DLH20T] [data-helps]')
    shown.says("#o-head", "5 of 9")
    assert shown.js("return location.hash") == "#DLH20T" and shown.js(ASKED) == 1
    shown.click("#p-flight .x-close")
    shown.click("#warnings [data-panel=act]")
    shown.click("#act [data-helps=DLH20T]")
    shown.says("#o-head", "5 of 9")
    assert shown.js("return document.activeElement.id") == "o-head"
    # From the strip one press leads to the button.
    shown.click("#p-flight .x-close")
    shown.click("#warnings a[href='#DLH20T']")
    shown.until("return document.querySelector('#b-options')?.getClientRects().length > 0")


@pytest.mark.parametrize("width", [320, 360, 1280])
def test_what_could_help_keeps_the_rules(sixty, width):
    """Also where the reader spaces the text; and by the keyboard alone."""
    shown = sixty()
    size(shown.driver, width, 900)
    shown.js("location.hash = '#DLH20T'")
    shown.until("return document.querySelector('#b-options').getClientRects().length > 0")
    shown.js("document.querySelector('#b-options').focus()")
    shown.keys(Keys.ENTER)
    shown.says("#o-head", "5 of 9")
    for rule in (RULES, TARGETS, CLIPPED, BROKEN):
        assert shown.js(rule) == []
    assert shown.js("return document.documentElement.scrollWidth <= innerWidth && document.querySelector('#p-flight').scrollWidth <= document.querySelector('#p-flight').clientWidth")
    shown.keys(Keys.TAB)
    assert shown.js("return document.activeElement.innerText") == "Put RWY into the form"
    shown.js(SPACED)
    shown.until("return document.documentElement.classList.contains('l-spaced')")
    assert shown.js(CLIPPED) == [] and shown.js("return document.documentElement.scrollWidth <= innerWidth")
