"""The page over a change of day: the new date, without a lost connection, and no row that jumps."""
import json
import signal

import browser
import pytest
from browser import Page, fill, size, until
from test_page_desks import sign_in

AT = "2025-03-11T{}Z".format
DAY = {"AP": ["FLT,AB1,5", "FLT,AB2,5", "FLT,CD3,5"],
       "ATC": ["RWY,AB1,27L", "RWY,AB2,09", f"CLOCK,{AT('03:00')}"],
       "AO": [f"TOBT,AB1,{AT('03:20')}", f"TOBT,AB2,{AT('06:10')}", "CNL,CD3"]}
WATCH = """window.lost = 0; window.moved = 0;
new MutationObserver(() => {
  window.lost += document.documentElement.classList.contains('is-lost');
  window.moved += document.querySelectorAll('tr.moved').length;
}).observe(document.documentElement, {attributes: true, childList: true, subtree: true});"""


def test_the_page_over_a_change_of_day(page):
    shown = page(day=DAY).open()
    assert "Mon 10 Mar 2025" in shown.text("h1") and shown.row("all", "AB2")[0] == "11 06:10" and "11 03:00" in shown.text(".now")
    assert shown.flights("next") == ["AB1"] and shown.row("next", "AB1")[0] == "11 03:20 in 20"
    shown.until("return document.querySelector('#runways th.hour')?.textContent === '11 03:00'")
    shown.js(WATCH)
    shown.click("#date")
    shown.says("#day", "Before Tue 11 Mar 2025 GONE 1 STAY 2")
    assert shown.js("return document.querySelector('#day a')") is None
    assert shown.text("#day .hint") == "GONE: so many flights stay behind. STAY: so many flights go on."
    shown.click("#day button")
    assert not shown.find("#day").is_displayed()
    answer = shown.server.request("POST", "/v1/day", "", Cdm_Role="ATC")
    assert answer.status == 200, answer
    shown.says("h1", "Tue 11 Mar 2025")
    # Each time has its new words, also of rows that are as they were; the one that was cancelled is gone.
    shown.until("return document.querySelector('#all tr[data-flight=AB2]').innerText.startsWith('06:10')")
    shown.until("return document.querySelector('#all tr[data-flight=CD3]') === null")
    assert shown.row("next", "AB1")[0] == "03:20 in 20" and "NOW UTC 03:00" == shown.text(".now")
    # What a form and a runway's band say is of the new date too; a flight of a name that flew before is another one.
    shown.until("return document.querySelector('#runways th.hour').textContent === '03:00'")
    fill(shown.server, {"ATC": [f"CLOCK,{AT('03:01')}"]})
    shown.says(".now", "NOW UTC 03:01")
    assert shown.js("return [window.lost, window.moved]") == [0, 0]
    fill(shown.server, {"AP": ["FLT,CD3,5"], "ATC": ["RWY,CD3,27L"], "AO": [f"TOBT,CD3,{AT('03:40')}"]})
    shown.until("return document.querySelector('#next tr[data-flight=CD3]') !== null")
    assert "new" in shown.row("next", "CD3")[9] and "was" not in shown.row("next", "CD3")[9]
    shown.click("#date")
    shown.says("#day", "Before Wed 12 Mar 2025")
    shown.until("return document.querySelector('#day a') !== null")
    assert shown.js("return document.querySelector('#day a').getAttribute('href')") == "/v1/plan?day=2025-03-10"
    # What is open of a flight is of this day, not of one before.
    shown.server.request("POST", "/v1/records", "PRIO,AB1,3", Cdm_Role="ATC")
    shown.open("#AB1")
    shown.says("#f-records", "PRIO")
    assert "TOBT" not in shown.text("#f-records")


# The first and the last of what a box has, scrolled to: whether each is within the window; and whether the box is, from side to side.
ENDS = """const box = document.querySelector('#day'), range = document.createRange();
const where = (node) => { range.selectNode(node); return range.getBoundingClientRect(); };
box.scrollTop = 0; const { top } = where(box.firstChild);
box.scrollTop = box.scrollHeight; const { bottom } = where(box.lastElementChild);
const { left, right } = box.getBoundingClientRect();
return [top >= 0, bottom <= innerHeight, left >= 0 && right <= innerWidth];"""
CROWD = [f"X{number:03}" for number in range(60)]


@pytest.mark.parametrize("width", [1280, 320])
def test_a_long_day_is_read_whole(page, width):
    """What to know before, and the plan of the day before, of more flights than the window has lines."""
    shown = page(day={"AP": [f"FLT,{name},5" for name in CROWD], "ATC": [f"RWY,{name},27L" for name in CROWD] + ["CLOCK,2025-03-10T22:00Z"],
                      "AO": [f"TOBT,{name},2025-03-10T23:30Z" for name in CROWD]})
    size(shown.driver, width, 640)
    shown.open()
    shown.click("#date")
    shown.says("#day", "EARLIER X059")
    assert shown.js(ENDS) == [True, True, True]
    shown.js("document.querySelector('#day').hidePopover()")
    assert shown.server.request("POST", "/v1/day?even=yes&day=2025-03-11", "", Cdm_Role="ATC").status == 200
    shown.says("h1", "Tue 11 Mar 2025")
    shown.click("#date")
    shown.says("#day", "Plan of Mon 10 Mar 2025")
    shown.click("#day a")
    shown.until("return document.querySelectorAll('#day tbody tr').length === 60")
    assert shown.js(ENDS) == [True, True, True]


def test_what_the_change_moved_was_moved_by_no_record(page):
    """A TOBT before midnight becomes 00:00: no record of the day before is why."""
    shown = page(day={"AP": ["FLT,AB1,5"], "ATC": ["RWY,AB1,27L", "CLOCK,2025-03-10T23:00Z"], "AO": ["TOBT,AB1,2025-03-10T23:30Z"]}).open()
    fill(shown.server, {"AO": ["TOBT,AB1,2025-03-10T23:50Z"]})
    shown.says('#next tr[data-flight="AB1"]', "was 23:30: TOBT 23:50, AO")
    shown.js("""window.told = 0; const real = window.fetch; window.fetch = async (path, ...words) => {
        const got = await real(path, ...words);
        if (String(path).startsWith('/v1/records?since=')) setTimeout(() => { window.told += 1; }, 100);
        return got; };""")
    assert shown.server.request("POST", "/v1/day?even=yes&day=2025-03-11", "", Cdm_Role="ATC").status == 200
    shown.says('#next tr[data-flight="AB1"]', "was 10 23:30")
    shown.until("return window.told > 0")
    assert "TOBT" not in shown.row("next", "AB1")[9]
    fill(shown.server, {"AO": ["TOBT,AB1,2025-03-11T00:20Z"]})
    shown.says('#next tr[data-flight="AB1"]', "was 10 23:30: TOBT 00:20, AO")


# Ten flights that stay, on two runways, one of which de-ices and one of which has a slot; GO1 took off, GO2 is cancelled, and LE1 left its
# stand at 23:50 and isn't airborne.
STAY = [f"ST{number}" for number in range(10)]
DESKS = {"ap": 'role = "AP"', "atc": 'role = "ATC"\nclock = true', "ao": 'role = "AO"', "nm": 'role = "NM"', "gh": 'role = "GH"'}
TWO = {"AP": [f"FLT,{name},5" for name in (*STAY, "GO1", "GO2", "LE1")],
       "ATC": [f"RWY,{name},{'27L' if number % 2 else '09'}" for number, name in enumerate((*STAY, "GO1", "GO2", "LE1"))],
       "AO": [f"TOBT,{name},{AT(f'03:{10 + 5 * number}')}" for number, name in enumerate(STAY)] + [
           "TOBT,GO1,2025-03-10T23:00Z", "CNL,GO2", "TOBT,LE1,2025-03-10T23:40Z"],
       "GH": ["ICE,ST3,STAND,12"], "NM": [f"CTOT,ST5,{AT('04:20')}"]}
LATER = {"ATC": ["OFF,GO1,2025-03-10T23:00Z", "AIR,GO1,2025-03-10T23:15Z", "OFF,LE1,2025-03-10T23:50Z", f"CLOCK,{AT('03:00')}"]}
# What a person sees whenever anything of the page changes: whether the connection is lost, and the rows of each list that stay, in their order,
# with the words of each cell, without the date before a time of the other day. What holds a flight is asked anew on each day: it may be `…`.
SEEN = """window.seen = {lost: 0, hidden: 0, lists: new Set(), dates: []};
window.rows = (list) => [...document.querySelectorAll(`#${list} tr[data-flight^=ST]`)].filter((row) => row.checkVisibility())
  .map((row) => [...row.children].map((cell) => cell.innerText.replace(/\\b1[01] (?=\\d\\d:)/g, '').replace(/\\s+/g, ' ').trim()));
const look = () => {
  const { seen } = window;
  seen.lost += /CONNECTION LOST|Signed out/.test(document.querySelector('#conn').innerText) || document.documentElement.classList.contains('is-lost');
  seen.hidden += getComputedStyle(document.querySelector('#next')).visibility !== 'visible';
  const date = document.querySelector('#date').innerText;
  if (seen.dates.at(-1) !== date) seen.dates.push(date);
  seen.lists.add(JSON.stringify(['next', window.rows('next').map((row) => row.slice(0, -1))]));
  seen.lists.add(JSON.stringify(['all', window.rows('all')]));
};
look();
new MutationObserver(look).observe(document.documentElement, {attributes: true, childList: true, subtree: true, characterData: true});"""


@pytest.fixture
def second():
    """Another person's browser."""
    opened = browser.driven()
    driver = next(opened)
    try:
        yield driver
    finally:
        opened.close()
        driver.quit()


def signed_and_not(page, second):
    """Two pages over one day, on which nobody needs a token to read: one of the tower's desk, and one that isn't signed in."""
    signed = page(DESKS, day=TWO)
    fill(signed.server, LATER, True)
    signed.server.write_desks(DESKS, "anyone")
    signed.server.process.send_signal(signal.SIGHUP)
    until(lambda: signed.server.get("/v1/plan").status == 200)
    size(second, 1280, 900)
    other = Page(second, signed.server).open()
    signed.open("#sign-in")
    sign_in(signed, "atc")
    signed.says("#desk", "atc")
    signed.is_ready()
    assert signed.text("#desk") == "atc" and other.text("#desk") == ""
    return signed, other


def told_of(row):
    """A row of the plan of the day before, as the page says it."""
    hm = lambda time: "–" if time is None else time[11:16] if time.startswith("2025-03-10") else f"{time[8:10]} {time[11:16]}"
    dash = lambda value: "–" if value is None else str(value)
    words = {"OFFBLOCK": "off-block", "BLOCKED": f"blocked {row['rule']}"}
    return [hm(row["tsat"]), row["flight"], words.get(row["status"], row["status"].lower()), dash(row["runway"]), dash(row["stand"]), hm(row["tobt"]),
            dash(row["exot"]), hm(row["ctot"]), hm(row["ttot"]), dash(row["delay"])]


def test_two_people_over_a_change(page, second):
    """One is signed in, with a form begun; one isn't. Neither loses the connection, no row moves or has other words but for its date, and
    both see what to know before, with the flight that is LEFT by name, and yesterday's plan as it ended."""
    both = signed, other = signed_and_not(page, second)
    server = signed.server
    signed.click('#all tr[data-flight="ST4"] a')
    signed.says("#p-flight form", "Kind")
    signed.choose("#p-flight form [name=kind]", "PRIO")
    signed.type("#p-flight form [name=priority]", "7")
    old = json.loads(server.get("/v1/plan.json").body)
    assert [row["ttot"] for row in old["flights"] if row["flight"] == "LE1"] == [AT("00:02")]
    for shown in both:
        shown.js(SEEN)
        shown.click("#date")
        shown.says("#day", "Before Tue 11 Mar 2025 LEFT LE1 09 AOBT 10 23:50 TTOT 11 00:02 GONE 2 STAY 10")
        shown.js("document.querySelector('#day').hidePopover()")
    before = [(shown.js("return window.rows('next')"), shown.js("return window.rows('all')")) for shown in both]
    assert before[0] == before[1] and len(before[0][0]) >= 5 and len(before[0][1]) == 10
    wait = server.request("POST", "/v1/day", "", "atc")
    assert wait.status == 409 and b"LEFT    LE1 09 AOBT 102350 TTOT 110002" in wait.body
    assert server.request("POST", "/v1/day?even=yes&day=2025-03-11", "", "atc").status == 200
    for shown, (ahead, every) in zip(both, before, strict=True):
        shown.says("h1", "Tue 11 Mar 2025")
        for name in ("LE1", "GO1", "GO2"):
            shown.until("return document.querySelector(`#all tr[data-flight=${arguments[0]}]`) === null", name)
        shown.until("return JSON.stringify(window.rows('next')) === arguments[0]", shown.js("return JSON.stringify(arguments[0])", ahead))
        seen = shown.js("return {...window.seen, lists: [...window.seen.lists].map((list) => JSON.parse(list))}")
        assert (seen["lost"], seen["hidden"], seen["dates"]) == (0, 0, ["Mon 10 Mar 2025", "Tue 11 Mar 2025"])
        lists = [["next", [row[:-1] for row in ahead]], ["all", every]]
        assert sorted(seen["lists"]) == sorted(lists)
    assert signed.js("return document.querySelector('#p-flight form [name=priority]').value") == "7"
    signed.click("#p-flight form button")
    signed.says("#p-flight .reply", "Accepted.")
    fill(server, {"AO": ["TOBT,ST9,2025-03-11T09:00Z"]}, True)
    for shown in both:
        shown.until("return document.querySelector('#all tr[data-flight=ST9]').innerText.includes('09:00')")
        shown.click("#date")
        shown.says("#day", "Plan of Mon 10 Mar 2025")
        shown.click("#day a")
        shown.says("#day", f"Plan of Mon 10 Mar 2025, as it ended 13 flights: placed 10, late {old['late']}, blocked 0, delay {old['delay']} min.")
        shown.until("return document.querySelectorAll('#day tbody tr').length === 13")
        said = {row[1]: row for row in shown.js("return [...document.querySelectorAll('#day tbody tr')].map((row) => [...row.cells].map((cell) => cell.innerText))")}
        assert said == {row["flight"]: told_of(row) for row in old["flights"]}
        assert shown.js("return [location.pathname, document.activeElement.id]") == ["/", "h-past"]
    assert other.told() == []


def test_what_is_typed_over_a_change_of_day(page):
    """It stays, also where one looks elsewhere; and what goes out is what the form says, with the date at which it was typed."""
    shown = page(day=DAY).open()
    shown.choose("#role", "AO")
    shown.open("#AB1")
    shown.until("return document.querySelector('#p-flight form input[name=time]') !== null")
    shown.until("return document.querySelector('#f-records tr') !== null")
    shown.type("#p-flight form input[name=time]", "23:50")
    shown.allowed.append("422 (Unprocessable Entity)")  # its effect, in a day that hasn't this date
    shown.says("#p-flight form .hint code", "TOBT,AB1,2025-03-10T23:50Z")
    shown.js("document.activeElement.blur()")
    left = shown.text("#desk-left")
    assert shown.server.request("POST", "/v1/day", "", Cdm_Role="ATC").status == 200
    shown.says("h1", "Tue 11 Mar 2025")
    # The records that are listed, and how many are left, are those of the new day.
    shown.until("return document.querySelector('#f-records tr') === null")
    shown.until("return document.querySelector('#desk-left').innerText !== arguments[0]", left)
    assert shown.js("return document.querySelector('#p-flight form input[name=time]').value") == "23:50"
    press = "document.querySelector('#p-flight form button:not([type])').click()"
    shown.js(press)
    shown.says("#p-flight .reply", "Look again. 10 23:50 is 190 min before NOW, 03:00.")
    shown.js(press)
    shown.says("#p-flight .reply", "Refused, RANGE")
    assert b"TOBT,AB1,2025-03-10T23:50Z" in shown.server.get("/v1/records?desk=AO&day=2025-03-11").body
