"""What one takes away from the page, and single keys: print, a file of the filter's flights, their order, a link, the help. The day by hand is in
browser.py."""
import pytest
from browser import size
from selenium_or_none import Keys

FOCUS = "return document.activeElement.textContent.trim() || document.activeElement.name"


def test_in_print(page):
    """With a stamp of what it is, and without forms and buttons."""
    shown = page().open("#RYR6")
    shown.choose("#role", "ATC")
    shown.says("#p-flight form", "Kind")
    assert not shown.find("#stamp").is_displayed()
    try:
        shown.driver.execute_cdp_cmd("Emulation.setEmulatedMedia", {"media": "print"})
        shown.says("#stamp", f"127.0.0.1:{shown.server.port}, Mon 10 Mar 2025, NOW 05:50 UTC, record ")
        assert shown.js("return document.querySelector('#stamp').textContent.split(' ').at(-1)") == shown.js("return document.querySelector('header dl').dataset.of.split(' ').at(-1)")
        pressed = "return [...document.querySelectorAll('form, button, input, select, textarea, .btn')].filter((one) => one.checkVisibility()).map((one) => one.outerHTML.slice(0, 60))"
        assert shown.js(pressed) == []
        assert shown.flights("next") and shown.text("#h-f").startswith("RYR6")
        shown.js("location.hash = '#what-if'")
        shown.until("return document.querySelector('#p-what-if').checkVisibility()")
        assert shown.js(pressed) == []
    finally:
        shown.driver.execute_cdp_cmd("Emulation.setEmulatedMedia", {"media": ""})


# What the page would save, and under which name.
SAVED = """window.saved = []; const made = URL.createObjectURL; URL.createObjectURL = (blob) => { blob.text().then((text) => window.saved.push(text)); return made(blob); };
document.addEventListener('click', (event) => { if (event.target.download) { event.preventDefault(); window.saved.push(event.target.download); } }, true);
HTMLAnchorElement.prototype.click = function () { if (this.download) window.saved.push(this.download); };"""


def test_a_file_of_what_the_filter_shows(page):
    """In the order of the tables, each member of a Row; what isn't known is empty. And the greatest delay first, in the address too."""
    shown = page().open("?op=DLH,KLM")
    shown.js(SAVED)
    shown.click("#b-csv")
    shown.until("return window.saved.length === 2")
    name, text = sorted(shown.js("return window.saved"), key=len)
    assert name == "start-ups-2025-03-10-0550.csv" and text.splitlines() == [
        "flight,status,rule,runway,stand,priority,group,tobt,exot,ctot,tsat,ttot,delay",
        "KLM5,BLOCKED,TOBT,27L,,5,M,,15,,,,",
        "DLH1,PLANNED,,27L,,5,M,2025-03-10T06:00Z,15,,2025-03-10T06:00Z,2025-03-10T06:15Z,0",
        "DLH2,PLANNED,,27L,A12,5,M,2025-03-10T06:00Z,15,,2025-03-10T06:05Z,2025-03-10T06:20Z,5"]
    shown.click("#show-all")
    planned = "return [...document.querySelectorAll('#all [data-status=PLANNED] tbody tr')].map((row) => row.dataset.flight)"
    shown.until(f"return ({planned[7:]}).length === 5")
    assert shown.js(planned) == ["BAW3", "DLH1", "DLH2", "RYR6", "AFR4"]
    shown.choose("#filter [name=sort]", "delay")
    shown.until(f"return ({planned[7:]}).join() === 'RYR6,AFR4,DLH2,BAW3,DLH1'")
    assert shown.js("return location.search") == "?sort=delay" and not shown.find("#filtered").is_displayed()
    shown.server.post("TOBT,DLH1,2025-03-10T06:10Z", Cdm_Role="AO")
    shown.until("return document.querySelector('#all tr[data-flight=DLH1]').innerText.includes('06:10')")
    shown.open("?sort=delay")
    assert shown.js(planned)[:2] == ["RYR6", "AFR4"]


def test_single_keys(page):
    """None of them does anything where somebody types, or once they are turned off."""
    shown = page().open()
    for key, name in (("j", "BAW3"), ("j", "DLH1"), ("k", "BAW3"), ("k", "BAW3")):
        shown.keys(key)
        shown.until("return document.activeElement.textContent === arguments[0]", name)
    shown.keys(Keys.ENTER)
    shown.says("#h-f", "BAW3")
    shown.keys("w")
    shown.until("return location.hash === '#what-if' && document.activeElement.id === 'h-wi'")
    shown.keys("/")
    shown.until("return document.activeElement.name === 'flight'")
    shown.keys("wj?/")
    assert shown.js("return [location.hash, document.activeElement.value]") == ["#what-if", "wj?/"]
    shown.js("document.activeElement.value = ''; document.activeElement.blur()")
    shown.keys("?")
    shown.says("#p-keys", "Single keys are on")
    assert shown.js(FOCUS).startswith("Help")
    shown.click("#keys-on")
    shown.js("document.activeElement.blur()")
    shown.keys("w")
    assert shown.js("return new Promise((go) => setTimeout(() => go(location.hash), 300))") == "#keys"
    shown.open("#keys")
    shown.until("return document.querySelector('#keys-on').checked === false")


@pytest.mark.parametrize("has", [True, False], ids=["a clipboard", "none"])
def test_a_link_to_a_flight_is_copied(page, has):
    shown = page().open("?op=DLH#DLH2")
    shown.js("""window.copied = []; const has = arguments[0];
        Object.defineProperty(navigator, 'clipboard', {configurable: true, value: has ? {writeText: async (text) => { window.copied.push(text); }} : undefined});""", has)
    address = f"http://127.0.0.1:{shown.server.port}/#DLH2"
    shown.click("#f-link")
    if has:
        shown.says("#f-link", "Copied")
        assert shown.js("return window.copied") == [address]
    else:
        shown.until("return document.querySelector('#f-address').checkVisibility()")
        assert shown.js("return [document.querySelector('#f-address').value, getSelection().toString()]") == [address, address]
    shown.js("location.hash = '#DLH1'")
    shown.says("#h-f", "DLH1")
    assert shown.text("#f-link") == "Copy link" and not shown.find("#f-address").is_displayed()


def test_the_tools_on_a_phone(page):
    """Nothing of the help or of the filter is wider than the screen."""
    shown = page()
    size(shown.driver, 320, 640)
    shown.open("#keys")
    shown.says("#p-keys", "Single keys are on")
    assert shown.js("return document.documentElement.scrollWidth") <= 320
