"""The page and its desks: sign in, sign out, a token that is taken away, other tabs; and texts that try to be markup."""
import contextlib
import hashlib
import re
import signal
import sqlite3

import pytest
from browser import DAY, FACTOR, size, until

DESKS = {"ap": 'role = "AP"', "atc": 'role = "ATC"\nclock = true', "ao": 'role = "AO"', "nm": 'role = "NM"',
         "ground-2": 'role = "GH"', "dlh-ops": 'role = "AO"\nflights = ["DLH"]', "wall": 'role = "READ"'}
# A desk may send a CLOCK of the present alone, and the day is another one.
QUIET = DAY | {"ATC": [line for line in DAY["ATC"] if not line.startswith("CLOCK")]}
DENIED = ["401 (Unauthorized)", "403 (Forbidden)", "ERR_INCOMPLETE_CHUNKED_ENCODING"]


def sign_in(shown, desk, token=None):
    shown.until("return document.querySelector('#p-sign-in [name=desk]').checkVisibility()")
    shown.type("#p-sign-in [name=desk]", desk)
    shown.type("#p-sign-in [name=token]", token or f"token-{desk}")
    shown.click("#p-sign-in form button")


def test_sign_in_and_out(page):
    shown = page(DESKS, day=QUIET)
    shown.allowed += DENIED
    shown.open(ready=False)
    shown.says("#conn", "Signed out.")
    shown.until("return location.hash === '#sign-in' && document.activeElement.name === 'desk'")
    # Without a token nothing of the day is there.
    assert "DLH1" not in shown.js("return document.documentElement.textContent")
    sign_in(shown, "ground-2", "wrong")
    shown.says("#sign-fault", "wrong desk or token.")
    assert shown.js("return document.activeElement.id") == "sign-fault"
    sign_in(shown, "ground-2")
    shown.is_ready()
    assert shown.text("#desk") == "ground-2" and shown.text("#desk-left") == "GH, 2,000 records left"
    assert shown.js("return document.cookie") == "" and shown.js("return document.querySelector('[name=token]').value") == ""
    shown.click('#all tr[data-flight="DLH2"] a')
    shown.says("#p-flight form", "Kind")
    assert shown.text("#f-send small") == "as ground-2, GH"
    shown.type("#p-flight form [name=time]", "06:30")
    shown.click("#p-flight form button")
    shown.says("#p-flight .reply", "Accepted.")
    assert shown.server.records("wall")[-1]["desk"] == "ground-2"
    shown.says("#f-records tr", "ground-2 GH TOBT 06:30")
    # It stays over a load, and in another tab; who signs out does so in both.
    first = shown.tab("")
    assert shown.text("#desk") == "ground-2"
    shown.click("#b-sign-out")
    shown.says("#conn", "Signed out.")
    shown.close_tab(first)
    shown.says("#conn", "Signed out.")
    assert shown.js("return getComputedStyle(document.querySelector('#next')).visibility") == "hidden"


def test_a_sign_out_that_the_log_does_not_take(page):
    """503: the page is signed out all the same and shows nothing more of the day; the session ends as soon as the log takes it."""
    shown = page(DESKS, day=QUIET)
    shown.allowed += [*DENIED, "503 (Service Unavailable)"]
    shown.open(ready=False)
    shown.says("#conn", "Signed out.")
    sign_in(shown, "ground-2")
    shown.is_ready()
    cookie, = shown.driver.get_cookies()
    with contextlib.closing(sqlite3.connect(shown.server.log, isolation_level=None)) as foreign:
        foreign.execute("BEGIN IMMEDIATE")
        shown.click("#b-sign-out")
        shown.until("return performance.getEntriesByType('resource').some((one) => one.name.endsWith('/v1/session') && one.responseStatus === 503)",
                    seconds=30 * FACTOR)
        shown.says("#conn", "Signed out.")
        shown.until("return document.querySelector('#p-sign-in [name=desk]').checkVisibility()")
        assert shown.js("return getComputedStyle(document.querySelector('#next')).visibility") == "hidden"
        assert shown.driver.get_cookies() == []
        foreign.execute("ROLLBACK")
        until(lambda: foreign.execute("SELECT * FROM cdm_session").fetchall() == [("", "ground-2", 1)])
    assert shown.server.get("/v1/who", Cookie=f"{cookie['name']}={cookie['value']}").status == 401
    sign_in(shown, "ground-2")
    shown.is_ready()
    assert shown.text("#desk") == "ground-2"


def test_a_token_that_is_taken_away(page):
    shown = page(DESKS, day=QUIET)
    shown.allowed += DENIED
    shown.open(ready=False)
    shown.says("#conn", "Signed out.")
    sign_in(shown, "ground-2")
    shown.is_ready()
    left = {name: table for name, table in DESKS.items() if name != "ground-2"}
    shown.click("#date")
    shown.says("#day", "Before Tue 11 Mar 2025 ")
    shown.server.write_desks(left)
    shown.server.process.send_signal(signal.SIGHUP)
    shown.says("#conn", "Signed out. ground-2’s sign-in has ended, or its token isn’t taken any more.", seconds=3 * FACTOR)
    shown.until("return location.hash === '#sign-in'")
    assert not shown.find("#day").is_displayed() and shown.text("#desk-left") == ""
    sign_in(shown, "wall")
    shown.is_ready()
    shown.says("#desk-left", "reads only")
    assert shown.text("#desk") == "wall" and not shown.find("#b-send").is_displayed()


@pytest.mark.parametrize("width", [320, 1280, 3840])
def test_who_is_signed_out_sees_why_and_nothing_of_the_day(page, width):
    """Also where the panel in which one signs in covers the page."""
    shown = page(DESKS, day=QUIET)
    shown.allowed += DENIED
    size(shown.driver, width, 640)
    shown.open(ready=False)
    shown.says("#conn", "Signed out.")
    sign_in(shown, "ground-2")
    shown.is_ready()
    date, title = shown.text("#date"), shown.driver.title
    assert date == "Mon 10 Mar 2025" and title == "00:00 Start-up board"
    shown.server.write_desks({name: table for name, table in DESKS.items() if name != "ground-2"})
    shown.server.process.send_signal(signal.SIGHUP)
    shown.says("#conn", "Signed out. ground-2’s sign-in has ended, or its token isn’t taken any more.", seconds=3 * FACTOR)
    shown.until("return document.activeElement.name === 'desk'")
    assert shown.js("""const range = document.createRange();
        range.selectNodeContents(document.querySelector('#conn [role=status]'));
        return [...range.getClientRects()].filter((box) => !document.elementFromPoint((box.left + box.right) / 2, (box.top + box.bottom) / 2)?.closest('.conn')).length""") == 0
    assert shown.driver.title == "Start-up board" and not shown.find("#date").is_displayed()
    sign_in(shown, "wall")
    shown.until("return document.title === arguments[0]", title)
    assert shown.find("#date").is_displayed()


def test_a_new_token_ends_a_session_at_once(page):
    """The server ends the display of the old token; the page comes back, isn't let in, and shows nothing of the day any more."""
    shown = page(DESKS, day=QUIET)
    shown.allowed += DENIED
    shown.open("#DLH2", ready=False)
    shown.says("#conn", "Signed out.")
    sign_in(shown, "ground-2")
    shown.is_ready()
    text = (shown.server.folder / "desks.toml").read_text()
    digest = lambda token: hashlib.sha256(token.encode()).hexdigest()
    (shown.server.folder / "desks.toml").write_text(text.replace(digest("token-ground-2"), digest("another")))
    shown.server.process.send_signal(signal.SIGHUP)
    shown.says("#conn", "Signed out. ground-2’s sign-in has ended, or its token isn’t taken any more.", seconds=3 * FACTOR)
    assert not shown.find("#all").is_displayed() and not shown.find("#p-flight").is_displayed()
    sign_in(shown, "ground-2", "another")
    shown.until("return document.querySelector('#desk').textContent === 'ground-2'")
    assert shown.find("#all").is_displayed()


def test_a_session_that_ended_is_told_at_its_next_record(page):
    """Its twelve hours end while the page is open: the record isn't taken, and the page says so."""
    shown = page(DESKS, day=QUIET)
    shown.allowed += DENIED
    shown.open(ready=False)
    shown.says("#conn", "Signed out.")
    sign_in(shown, "ground-2")
    shown.is_ready()
    shown.click('#all tr[data-flight="DLH2"] a')
    # All that is asked by itself has come.
    shown.until("return document.querySelector('#f-later button') && document.querySelector('#f-records tr') && document.querySelector('#operators option')")
    before = len(shown.server.records("wall"))
    shown.type("#p-flight form [name=time]", "06:30")
    shown.driver.execute_cdp_cmd("Network.clearBrowserCookies", {})
    shown.click("#p-flight form button")
    shown.says("#conn", "Signed out. ground-2’s sign-in has ended, or its token isn’t taken any more.")
    shown.says("#conn", "Not taken: TOBT DLH2 06:30. Sign in with a desk and its token.")
    assert len(shown.server.records("wall")) == before and not shown.find("#all").is_displayed()


def test_a_link_to_a_flight_is_followed_after_the_sign_in(page):
    shown = page(DESKS, day=QUIET)
    shown.allowed += DENIED
    shown.open("#DLH2", ready=False)
    shown.says("#conn", "Signed out.")
    sign_in(shown, "ground-2")
    shown.is_ready()
    shown.says("#h-f", "DLH2 planned, runway 27L, stand A12")
    shown.says("#p-flight form", "Kind")
    assert shown.js("return location.hash") == "#DLH2"


def test_who_may_read_without_a_token(page):
    shown = page(DESKS, day=QUIET, start=True)
    shown.server.write_desks(DESKS, "anyone")
    shown.server.process.send_signal(signal.SIGHUP)
    until(lambda: shown.server.get("/v1/who").status == 200)
    shown.allowed += DENIED
    shown.open()
    assert shown.text("#desk-left") == "reads only" and shown.find("#b-sign-in").is_displayed()
    shown.click("#b-sign-in")
    sign_in(shown, "dlh-ops")
    shown.until("return document.querySelector('#desk').textContent === 'dlh-ops'")
    # An operator's desk has the form for its own flights alone.
    shown.click('#all tr[data-flight="DLH2"] a')
    shown.says("#p-flight form", "Kind")
    assert shown.js("return [...document.querySelector('#p-flight form select').options].map((o) => o.value)") == ["TOBT", "CNL"]
    shown.click("#show-all")
    shown.click('#all tr[data-flight="BAW3"] a')
    shown.says("#h-f", "BAW3")
    assert shown.js("return document.querySelector('#f-send').hidden") and not shown.find("#b-send").is_displayed()
    # Its token is taken away: the page goes on reading, and says so.
    shown.server.write_desks({name: table for name, table in DESKS.items() if name != "dlh-ops"}, "anyone")
    shown.server.process.send_signal(signal.SIGHUP)
    shown.says("#conn", "Signed out as dlh-ops", seconds=3 * FACTOR)
    assert shown.flights("all") and shown.text("#desk-left") == "reads only"


MARKUP = ["<img src=x onerror=window.hit=1>", "<script>window.hit=1</script>", "<svg onload=window.hit=1>", "&lt;b&gt;", "'+window.hit+'"]


def test_texts_that_try_to_be_markup(page):
    shown = page()
    for text in MARKUP:
        shown.server.post(f"TOBT,DLH2,{text}", Cdm_Role="AO")
        shown.server.post(f"FLT,{text},5", Cdm_Role="AP")
        shown.server.post(f"{text}", Cdm_Role="AP")
    shown.open("#DLH2")
    shown.until("return document.querySelectorAll('#f-records tr').length >= 9")
    told = shown.texts("#f-records td:last-child")
    assert [any(f"TOBT {text} refused TEXT" in one for one in told) for text in MARKUP] == [True] * len(MARKUP)
    shown.click("#f-records tr button")
    shown.until("return document.querySelector('#f-records .words').innerText !== ''")
    shown.choose("#role", "AP")
    shown.until("return document.querySelector('#b-send').hidden === false")
    shown.click("#b-send")
    for text in MARKUP:
        shown.says("#s-records", f"FLT {text} 5 refused")
        shown.choose("#p-send [name=kind]", "STAND")
        shown.js("document.querySelector('#p-send [name=flight]').removeAttribute('maxlength')")
        shown.type("#p-send [name=flight]", text)
        shown.type("#p-send [name=stand]", "A1")
        shown.click("#p-send form button")
        shown.until("return /Refused, [A-Z]+: /.test(document.querySelector('#p-send .reply').innerText)")
    # In the address and in a scenario too.
    shown.allowed.append("422 (Unprocessable Entity)")
    shown.open("?op=%3Cimg%20src%3Dx%20onerror%3Dwindow.hit%3D1%3E&flight=%3Cb%3E&runway=%22%3E%3Cb%3E#what-if")
    shown.js("document.querySelector('#scenario').value = 'SCENARIO,A\\n<img src=x onerror=window.hit=1>,1'")
    shown.click("#p-what-if form button")
    shown.says("#wi-fault", "Line 2: ")
    assert shown.js("return window.hit ?? null") is None
    assert shown.js("return document.querySelectorAll('img, body script, iframe, object, main b b').length") == 0


def test_the_page_s_own_files_have_nothing_inline(page):
    shown = page()
    shown.open()
    policy = shown.server.get("/").headers["Content-Security-Policy"]
    assert policy.startswith("default-src 'self'") and "unsafe" not in policy
    text = shown.server.get("/").body.decode()
    assert not re.search(r"<style|style=|\son[a-z]+=|<script(?! (?:type=\"module\" )?src=)|javascript:|//[a-z]", text)
    # What would be inline isn't run: the policy holds in this browser.
    shown.allowed += ["Content Security Policy", "violates the following"]
    shown.js("const s = document.createElement('script'); s.textContent = 'window.hit = 1'; document.body.append(s);")
    assert shown.js("return window.hit ?? null") is None


def test_nothing_of_the_day_is_left_after_a_sign_out(page):
    """Not the picture that was open, not the filter's count, not NOW, and no flight behind the sign-in that is closed."""
    shown = page(DESKS, day=QUIET)
    shown.allowed += DENIED
    shown.open("?op=DLH#DLH2", ready=False)
    shown.says("#conn", "Signed out.")
    sign_in(shown, "wall")
    shown.is_ready()
    shown.says("#h-f", "DLH2")
    shown.click("#b-picture")
    shown.until("return document.querySelector('#drawn').shadowRoot !== null")
    assert shown.text("#filtered").startswith("Filter:") and shown.text(".now").startswith("NOW")
    shown.click("#b-sign-out")
    shown.says("#conn", "Signed out.")
    seen = """return [...document.querySelectorAll('header, section, aside, .skip, nav > *')]
        .filter((one) => one.checkVisibility({checkVisibilityCSS: true})).map((one) => one.id || one.tagName)"""
    assert shown.js(seen) == ["HEADER", "SPAN", "b-theme", "b-sign-in", "p-sign-in"]
    assert "00:00" not in shown.text("body") and "DLH" not in shown.text("body")
    shown.click("#p-sign-in .x-close")
    shown.until("return document.querySelector('#p-sign-in').hidden")
    assert shown.js(seen) == ["HEADER", "SPAN", "b-theme", "b-sign-in"]
    assert "00:00" not in shown.text("body") and "DLH" not in shown.text("body")
