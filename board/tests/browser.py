"""A browser for the tests of the page: one Chromium, a page at a time over a real server."""
import json
import os
import re
import time
from importlib.util import find_spec
from urllib.parse import urlsplit

import pytest
from conftest import FACTOR, PROGRAM, objects, until

WAIT = 5 * FACTOR
BINARY, DRIVER = "/usr/bin/chromium", "/usr/bin/chromedriver"

AIRPORT = "DAY,2025-03-10\nRUNWAY,27L,10,2\nRUNWAY,09,10,2\nTAXI,*,27L,15\nTAXI,*,09,12\n"
# At 05:50. On 27L a cell of ten minutes takes two: BAW3 and DLH1 take off at 06:15, DLH2 waits for the next cell, at 06:20.
# On 09 RYR6 is ready for take-off at 06:22, and waits for the end of the closure, 06:50. AFR4 waits for its CTOT's window,
# which begins 5 minutes before it, at 07:05. EZY7's window has ended when it is ready; KLM5 has no TOBT.
DAY = {
    "AP": ["FLT,BAW3,5", "FLT,DLH1,5", "FLT,DLH2,5", "FLT,RYR6,5", "FLT,AFR4,5", "FLT,EZY7,5", "FLT,KLM5,5", "STAND,DLH2,A12"],
    "ATC": ["RWY,BAW3,27L", "RWY,DLH1,27L", "RWY,DLH2,27L", "RWY,RYR6,09", "RWY,AFR4,09", "RWY,EZY7,27L", "RWY,KLM5,27L",
            "CLOSE,09,2025-03-10T06:20Z,2025-03-10T06:50Z", "CLOCK,2025-03-10T05:50Z"],
    "AO": ["TOBT,BAW3,2025-03-10T06:00Z", "TOBT,DLH1,2025-03-10T06:00Z", "TOBT,DLH2,2025-03-10T06:00Z",
           "TOBT,RYR6,2025-03-10T06:10Z", "TOBT,AFR4,2025-03-10T06:40Z", "TOBT,EZY7,2025-03-10T07:00Z"],
    "NM": ["CTOT,AFR4,2025-03-10T07:10Z", "CTOT,EZY7,2025-03-10T06:30Z"]}


def missing():
    """Why the page can't be tested here, or nothing."""
    if find_spec("selenium") is None:
        return "python3-selenium is missing"
    for path, package in ((BINARY, "chromium"), (DRIVER, "chromium-driver")):
        if not os.access(path, os.X_OK):
            return f"{package} is missing"
    return "the program lacks the commands that the page shows" if PROGRAM.endswith("standin.py") else ""


def driven():
    """A browser, as long as it is wanted."""
    from selenium import webdriver
    from selenium.webdriver.chrome.service import Service
    options = webdriver.ChromeOptions()
    options.binary_location = BINARY
    for word in ("--headless=new", "--no-sandbox", "--disable-gpu", "--disable-dev-shm-usage", "--window-size=1280,900"):
        options.add_argument(word)
    options.set_capability("goog:loggingPrefs", {"browser": "ALL", "performance": "ALL"})
    driver = webdriver.Chrome(options=options, service=Service(DRIVER))
    driver.set_script_timeout(60)
    yield driver
    driver.quit()


class Page:
    """The page in a tab."""

    def __init__(self, driver, server):
        self.driver, self.server = driver, server
        # The page names its own icon; a browser may ask for this one beside the picture at which the storage is cleared.
        self.allowed = ["/favicon.ico"]

    def open(self, path="", ready=True):
        self.driver.get("about:blank")
        self.driver.get(f"http://127.0.0.1:{self.server.port}/{path}")
        if ready:
            self.is_ready()
        return self

    def is_ready(self):
        """Until the plan, the next start-ups, the warnings and the runways are there."""
        self.until("return document.querySelector('#warnings h2 b').textContent !== '…' && document.querySelector('.band') !== null"
                   " && document.querySelector('#next h2 b').textContent !== '…' && !document.documentElement.classList.contains('is-new')")

    def js(self, script, *words):
        return self.driver.execute_script(script, *words)

    def until(self, script, *words, seconds=WAIT):
        end = time.monotonic() + seconds
        while not self.js(script, *words):
            assert time.monotonic() < end, f"never so: {script} {words}; {self.text('#conn')}"
            time.sleep(0.03)

    def text(self, selector):
        """The text that is shown in an element."""
        return self.js("return document.querySelector(arguments[0])?.innerText.replace(/\\s+/g, ' ').trim() ?? null", selector)

    def texts(self, selector):
        return self.js("return [...document.querySelectorAll(arguments[0])].filter((e) => e.checkVisibility())"
                       ".map((e) => e.innerText.replace(/\\s+/g, ' ').trim())", selector)

    def says(self, selector, text, seconds=WAIT):
        """Until an element shows a text in its own."""
        self.until("return document.querySelector(arguments[0])?.innerText.replace(/\\s+/g, ' ').includes(arguments[1])", selector, text,
                   seconds=seconds)

    def find(self, selector):
        from selenium.webdriver.common.by import By
        return self.driver.find_element(By.CSS_SELECTOR, selector)

    def click(self, selector):
        """Rows are put in their places as soon as no finger is on the page, and what a card offers comes with its effect."""
        self.until("return document.querySelector(arguments[0])?.getClientRects().length > 0", selector)
        self.find(selector).click()

    def type(self, selector, text):
        field = self.find(selector)
        field.clear()
        field.send_keys(text)

    def keys(self, *keys):
        from selenium.webdriver.common.action_chains import ActionChains
        ActionChains(self.driver).send_keys(*keys).perform()

    def choose(self, selector, text):
        from selenium.webdriver.support.ui import Select
        Select(self.find(selector)).select_by_visible_text(text)

    def row(self, table, flight):
        """The cells of a flight's row."""
        return self.texts(f'#{table} tr[data-flight="{flight}"] > *')

    def flights(self, table):
        return self.texts(f"#{table} tbody tr th a")

    def tab(self, path):
        """Another tab; the first one's handle."""
        first = self.driver.current_window_handle
        self.driver.switch_to.new_window("tab")
        self.open(path)
        return first

    def close_tab(self, first):
        self.driver.close()
        self.driver.switch_to.window(first)

    def told(self):
        """What stands in the console as an error, but for what a test allows."""
        lines = [line["message"] for line in self.driver.get_log("browser") if line["level"] in ("SEVERE", "WARNING")]
        return [line for line in lines if not any(words in line for words in self.allowed)]

    def requests(self):
        """What was asked for: the addresses."""
        messages = [json.loads(line["message"])["message"] for line in self.driver.get_log("performance")]
        return [message["params"]["request"]["url"] for message in messages if message["method"] == "Network.requestWillBeSent"]


def pages(request, board):
    """Makes a page over a server; afterwards there is no error in its console, and it asked no other host."""
    made, why = [], missing()
    if why:
        pytest.skip(f"{request.node.name}: {why}")
    driver = request.getfixturevalue("chromium")

    def make(*words, day=DAY, **more):
        server = board(*words, **{"airport": AIRPORT} | more)
        fill(server, day, bool(words))
        driver.execute_cdp_cmd("Network.clearBrowserCookies", {})
        size(driver, 1280, 900)
        # A picture, for which a browser asks no icon, so that its storage can be cleared before the page begins.
        icon = re.search(r"/page-[0-9a-f]+/icon[.]svg", server.get("/").body.decode())
        assert icon is not None
        driver.get(f"http://127.0.0.1:{server.port}{icon[0]}")
        driver.execute_script("try { localStorage.clear(); sessionStorage.clear(); } catch {}")
        driver.get_log("browser"), driver.get_log("performance")
        made.append(Page(driver, server))
        return made[-1]
    yield make
    for one in made:
        addresses = one.requests()
        first, *others = driver.window_handles
        for handle in others:
            driver.switch_to.window(handle)
            driver.close()
        driver.switch_to.window(first)
        assert {urlsplit(address).hostname for address in addresses if address.startswith("http")} <= {"127.0.0.1"}
        told = one.told()
        assert told == [], told
        driver.get("about:blank")


def fill(server, day, are_desks=False):
    """Posts a day's records, not faster than a desk may; each is accepted."""
    for role, lines in day.items():
        for at in range(0, len(lines), 256):
            headers = {} if are_desks else {"Cdm_Role": role}
            while getattr(replies := server.post(lines[at:at + 256], desk=role.lower() if are_desks else None, **headers), "status", 200) == 429:
                time.sleep(int(replies.headers["Retry-After"]))
            assert all(reply["reply"] == "ACCEPTED" for reply in replies), replies


def size(driver, width, height, scale=1):
    """The window's size in its own units, and how many of the screen's each of them is; until the page has heard of it."""
    driver.execute_cdp_cmd("Emulation.setDeviceMetricsOverride",
                           {"width": width, "height": height, "deviceScaleFactor": scale, "mobile": False})
    driver.execute_async_script("const done = arguments[0]; requestAnimationFrame(() => requestAnimationFrame(done)); setTimeout(done, 300)")


__all__ = ["AIRPORT", "DAY", "FACTOR", "WAIT", "Page", "driven", "fill", "objects", "pages", "size", "until"]
