"""Presses on the buttons of a panel, by a real pointer: what stands above a button may change its height between the pointer's down and up,
as a record comes or the day changes. And why nothing can be sent, as a text."""
from browser import AIRPORT, WAIT, fill, until
from selenium_or_none import Keys

BUTTON = "#p-flight form .sends"
TOP = f"return document.querySelector('{BUTTON}').getBoundingClientRect().top"
STALE = """const real = fetch; window.since = '2025-03-10T05:49:12.000Z'; window.fetch = async (...words) => {
    const got = await real(...words);
    if (!window.since) return got;
    const headers = new Headers(got.headers); headers.set('Cdm-Stale-Since', window.since);
    const body = words[0] === '/health' ? JSON.stringify({...await got.json(), stale_since: window.since}) : got.body;
    return new Response(body, {status: got.status, headers}); };"""


def at(time, day="2025-03-10"):
    return f"{day}T{time}Z"


def actions(shown):
    from selenium.webdriver.common.action_chains import ActionChains
    return ActionChains(shown.driver)


def is_open(shown, flight, time):
    """The form of a flight, with a TOBT that is typed, in a part of the panel that is in sight."""
    shown.choose("#role", "AO")
    shown.open(f"#{flight}")
    shown.until(f"return document.querySelector('{BUTTON}') !== null && document.querySelector('#f-later button') !== null")
    shown.type("#p-flight form [name=time]", time)
    shown.js(f"document.querySelector('{BUTTON}').scrollIntoView({{block: 'center'}})")


def down(shown, from_top):
    """The pointer goes down on the button, near its upper or lower edge. Where the button is then."""
    button = shown.find(BUTTON)
    by = button.size["height"] / 2 - 4
    top = shown.js(TOP)
    actions(shown).move_to_element_with_offset(button, 0, round(-by if from_top else by)).click_and_hold().perform()
    return top


def is_taken(shown, line):
    shown.says("#p-flight .reply", "Accepted.")
    assert [record["line"] for record in shown.server.records() if record["desk"] == "AO"][-1] == line


def test_a_press_while_a_record_comes(page):
    """What DLH2 waits for gets longer above its form, by a closure, so the button goes down under the pointer."""
    shown = page().open()
    is_open(shown, "DLH2", "06:10")
    top = down(shown, from_top=True)
    fill(shown.server, {"ATC": [f"CLOSE,27L,{at('06:20')},{at('06:50')}"]})
    shown.until(f"{TOP} > arguments[0] + 8", top)
    actions(shown).release().perform()
    is_taken(shown, f"TOBT,DLH2,{at('06:10')}")


def test_a_press_while_the_day_changes(page):
    """What would be ten minutes later isn't answered yet in the new day, so the button goes up under the pointer."""
    shown = page(day={"AP": ["FLT,AB1,5"], "ATC": ["RWY,AB1,27L", f"CLOCK,{at('03:00', '2025-03-11')}"],
                      "AO": [f"TOBT,AB1,{at('03:20', '2025-03-11')}"]}).open()
    is_open(shown, "AB1", "11 03:40")
    shown.js("const real = fetch; window.fetch = (...words) => (String(words[0]).includes('LATER') ? new Promise(() => {}) : real(...words))")
    top = down(shown, from_top=False)
    assert shown.server.request("POST", "/v1/day", "", Cdm_Role="ATC").status == 200
    shown.says("h1", "Tue 11 Mar 2025")
    shown.until(f"{TOP} < arguments[0] - 8", top)
    actions(shown).release().perform()
    is_taken(shown, f"TOBT,AB1,{at('03:40', '2025-03-11')}")


def test_what_is_pressed_is_of_the_date_at_which_it_was_typed(page):
    """The press takes the focus out of the field, which then says that it has changed: what goes out stays what the form has said."""
    shown = page(day={"AP": ["FLT,AB1,5"], "ATC": ["RWY,AB1,27L", f"CLOCK,{at('03:00', '2025-03-11')}"],
                      "AO": [f"TOBT,AB1,{at('03:20', '2025-03-11')}"]}).open()
    is_open(shown, "AB1", "23:50")
    shown.allowed.append("422 (Unprocessable Entity)")  # its effect, in a day that hasn't this date
    line = f"TOBT,AB1,{at('23:50')}"
    shown.says("#p-flight form .hint code", line)
    assert shown.server.request("POST", "/v1/day", "", Cdm_Role="ATC").status == 200
    shown.says("h1", "Tue 11 Mar 2025")
    assert shown.js("return document.activeElement.name") == "time"
    actions(shown).move_to_element(shown.find(BUTTON)).click_and_hold().perform()
    assert shown.text("#p-flight form .hint code") == line
    actions(shown).release().perform()
    shown.says("#p-flight .reply", "Look again. 10 23:50 is 190 min before NOW, 03:00.")
    actions(shown).click(shown.find(BUTTON)).perform()
    shown.says("#p-flight .reply", "Refused, RANGE")


def test_a_press_that_is_taken_back(page):
    """Who moves the pointer away before it goes up sends nothing; and what lies under a button that has moved isn't pressed in its place."""
    shown = page().open()
    is_open(shown, "DLH2", "06:10")
    before = len(shown.server.records())
    down(shown, from_top=True)
    actions(shown).move_by_offset(-120, 0).release().perform()
    down(shown, from_top=True)
    shown.js("document.querySelector('#f-later').style.height = '10rem'")
    actions(shown).move_by_offset(0, -60).release().perform()
    assert shown.find("#p-flight .reply").is_displayed() is False and len(shown.server.records()) == before
    shown.js("""window.clicked = []; addEventListener('click', (event) => window.clicked.push(event.target.className));
        document.querySelector('#f-later').style.height = '';
        document.querySelector('#f-later').before(Object.assign(document.createElement('button'), {className: 'other', type: 'button'}));""")
    down(shown, from_top=True)
    shown.js("""const { left, top } = document.querySelector(arguments[0]).getBoundingClientRect();
        document.querySelector('#f-later').style.height = '20rem';
        document.querySelector('.other').style = `position: fixed; left: ${left - 50}px; top: ${top - 20}px; width: 200px; height: 60px`;""", BUTTON)
    actions(shown).release().perform()
    is_taken(shown, f"TOBT,DLH2,{at('06:10')}")
    assert shown.js("return window.clicked") == ["sends"]


def test_what_is_typed_stays_over_another_log(page):
    """Another log at the old address: the form in which one types is the same one, and a press on it reaches the new log."""
    shown = page(day={"AP": ["FLT,AB1,5"], "ATC": ["RWY,AB1,27L"], "AO": [f"TOBT,AB1,{at('06:00')}"]}).open()
    is_open(shown, "AB1", "06:30")
    shown.allowed += ["ERR_", "503 (Service Unavailable)", "404 (Not Found)", "422 (Unprocessable Entity)"]
    shown.js("window.form = document.querySelector('#p-flight form')")
    server = shown.server
    server.end()
    server.airport.write_text(AIRPORT.replace("2025-03-10", "2025-03-11"))
    server.log = server.folder / "next.db"
    server.start()
    fill(server, {"AP": ["FLT,AB1,5"], "ATC": ["RWY,AB1,27L"], "AO": [f"TOBT,AB1,{at('05:50', '2025-03-11')}"]})
    shown.says("h1", "Tue 11 Mar 2025", seconds=4 * WAIT)
    shown.says("#p-flight .facts", "05:50")
    assert shown.js("return document.querySelector('#p-flight form') === window.form && window.form.elements.time.value") == "06:30"
    actions(shown).click(shown.find(BUTTON)).perform()
    shown.says("#p-flight .reply", "Look again. 10 06:30 is ")  # it is of the date at which it was typed
    actions(shown).click(shown.find(BUTTON)).perform()
    shown.says("#p-flight .reply", "Refused, RANGE")


def test_nothing_is_sent_while_the_log_is_away(page):
    """Send is still there for the keyboard, and says why it sends nothing; as soon as the log is reached, it sends."""
    shown = page().open()
    is_open(shown, "DLH2", "06:10")
    assert not shown.find("#p-flight form .cant").is_displayed()
    before = len(shown.server.records())
    shown.js(STALE)
    shown.says("#p-flight form .cant", "Nothing can be sent: the log isn’t reached.", seconds=20 + WAIT)
    told = shown.js(f"""const button = document.querySelector('{BUTTON}');
        return [button.getAttribute('aria-disabled'), button.disabled, document.getElementById(button.getAttribute('aria-describedby').split(' ')[0]).innerText];""")
    assert told == ["true", False, "Nothing can be sent: the log isn’t reached."]
    shown.find("#p-flight form [name=time]").send_keys(Keys.TAB)
    assert shown.js(f"return document.activeElement === document.querySelector('{BUTTON}')")
    shown.keys(Keys.ENTER)
    shown.says("#p-flight .reply", "Not sent. Nothing can be sent: the log isn’t reached.")
    assert len(shown.server.records()) == before
    shown.js("window.since = null")
    shown.until("return !document.querySelector('#p-flight form .cant').checkVisibility()", seconds=20 + WAIT)
    assert shown.find(BUTTON).get_attribute("aria-disabled") == "false"
    actions(shown).click(shown.find(BUTTON)).perform()
    is_taken(shown, f"TOBT,DLH2,{at('06:10')}")
    until(lambda: len(shown.server.records()) == before + 1)
