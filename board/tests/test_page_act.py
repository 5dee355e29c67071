"""The page as a tool to act: what a record does before it goes out, what is asked once, and what takes it back. The day by hand is in browser.py."""
import pytest
from browser import fill, size, until
from selenium_or_none import Keys
from test_page_eye import BROKEN, CLIPPED
from test_page_look import colour
from test_page_rules import RULES, TARGETS

ASKED = "return performance.getEntriesByType('resource').filter((one) => one.name.endsWith('/v1/compare/THIS')).length"


def at(time):
    return f"2025-03-10T{time}Z"


def form_of(page, role, flight):
    """The flight's form of a role."""
    shown = page().open(f"#{flight}")
    shown.choose("#role", role)
    shown.says("#p-flight form", "Kind")
    return shown


def lines(shown):
    return [record["line"] for record in shown.server.records()]


def test_the_effect_of_a_record_before_it_goes_out(page):
    """DLH1 takes off at 06:35 with the TOBT 06:20, and DLH2, which waits for its place, at 06:15: 5 minutes less. Nothing is sent for that."""
    shown = form_of(page, "AO", "DLH1")
    before = lines(shown)
    shown.until("return document.querySelector('#f-later button') !== null")
    assert shown.js(ASKED) == 0 and not shown.find("#p-flight .effect").is_displayed()
    shown.type("#p-flight form [name=time]", "0620")
    shown.says("#p-flight .effect", "Its effect: start-up 06:20 (was 06:00), moves DLH2; −5 min of delay in all.")
    described = "return document.getElementById(document.querySelector('#p-flight form button').getAttribute('aria-describedby').split(' ')[1]).innerText"
    assert shown.js(described).startswith("Its effect: start-up 06:20")
    shown.type("#p-flight form [name=time]", "06:00")
    shown.says("#p-flight .effect", "Its effect: start-up 06:00 as now, moves no other flight.")
    assert lines(shown) == before
    # A field that is empty has no effect.
    shown.find("#p-flight form [name=time]").clear()
    shown.until("return document.querySelector('#p-flight .effect').hidden")


def test_the_effect_on_others(page):
    """AFR4's window on 09 is 07:05 to 07:20; BAW3, DLH1 and DLH2 take off on 27L at 06:15, 06:15 and 06:20, and EZY7, which is blocked, comes later."""
    shown = page().open()
    shown.choose("#role", "ATC")
    shown.until("return document.querySelector('#b-send').hidden === false")
    shown.click("#b-send")
    shown.choose("#p-send [name=kind]", "CLOSE")
    shown.choose("#p-send .fields select", "09")
    shown.type("#p-send [name=from]", "07:00")
    shown.type("#p-send [name=to]", "07:30")
    shown.says("#p-send .effect", "Its effect: 1 flight loses its CTOT: AFR4; −13 min of delay in all.")
    shown.choose("#p-send .fields select", "27L")
    shown.type("#p-send [name=from]", "06:10")
    shown.type("#p-send [name=to]", "06:40")
    # They take off at 06:40, 06:40 and 06:50: 25, 25 and 30 minutes later. DLH2 is 35 minutes late then; before, RYR6 alone was late, by 28.
    shown.says("#p-send .effect", "Its effect: moves 3 flights: BAW3, DLH1, DLH2; +80 min of delay in all; 3 more late; max delay 35 min (was 28).")
    # DLH3 takes off at 06:21, and at 06:50 then: of four that move three have their names.
    fill(shown.server, {"AP": ["FLT,DLH3,5"], "ATC": ["RWY,DLH3,27L"], "AO": [f"TOBT,DLH3,{at('06:06')}"]})
    shown.says("#p-send .effect", "Its effect: moves 4 flights: BAW3, DLH1, DLH2 …;")
    shown.choose("#p-send [name=kind]", "PRIO")
    shown.type("#p-send [name=flight]", "ZZ9")
    shown.type("#p-send [name=priority]", "1")
    shown.says("#p-send .effect", "It would be refused: ZZ9 has no FLT that was accepted before this record.")
    shown.type("#p-send [name=priority]", "x")
    shown.says("#p-send .effect", "It would be refused: field 3 \"x\"")
    shown.allowed.append("422 (Unprocessable Entity)")


HOLD = """const real = window.fetch; let count = 0;
window.fetch = async (path, ...words) => {
  if (path === '/v1/compare/THIS' && (count += 1) > 1) await new Promise((go) => { window.go = go; });
  return real(path, ...words);
};"""


def test_an_effect_is_old_when_the_day_moves_on(page):
    """It is said of which record it was, until the new one is there. DLH2 has the place of DLH1 then, and takes off when it is ready."""
    shown = form_of(page, "GH", "DLH2")
    shown.js(HOLD)
    shown.type("#p-flight form [name=time]", "06:10")
    shown.says("#p-flight .effect", "Its effect: start-up 06:10 (was 06:05), moves no other flight; −5 min of delay in all.")
    position = len(lines(shown))
    shown.server.post(f"TOBT,DLH1,{at('06:20')}", Cdm_Role="AO")
    shown.says("#p-flight .effect", f"That was of record {position}, and the day has moved on: it is asked again.")
    shown.until("return window.go !== undefined")
    shown.js("window.go()")
    shown.says("#p-flight .effect", "Its effect: start-up 06:10 (was 06:00), moves no other flight.")
    assert "moved on" not in shown.text("#p-flight .effect")


def test_what_looks_wrong_is_asked_once(page):
    """NOW is 05:50, and AFR4's TOBT is 06:40. What is asked about isn't sent before the second press; another time is asked about anew."""
    shown = form_of(page, "AO", "AFR4")
    before = lines(shown)
    for time, words in (("05:40", "05:40 is 10 min before NOW, 05:50."), ("06:09", "06:09 is 31 min earlier than the TOBT that stands, 06:40.")):
        shown.type("#p-flight form [name=time]", time)
        shown.click("#p-flight form button")
        shown.says("#p-flight .reply", f"Look again. {words} Press Send even so if it is meant.")
        assert shown.js("return document.activeElement.className").startswith("reply")
        assert shown.text("#p-flight form button") == "Send even so" and lines(shown) == before
    shown.type("#p-flight form [name=time]", "06:10")
    shown.until("return document.querySelector('#p-flight .reply').hidden")
    assert shown.text("#p-flight form button") == "Send"
    shown.type("#p-flight form [name=time]", "06:09")
    shown.click("#p-flight form button")
    shown.says("#p-flight .reply", "Look again.")
    shown.click("#p-flight form button")
    shown.says("#p-flight .reply", "Accepted.")
    assert lines(shown) == [*before, f"TOBT,AFR4,{at('06:09')}"] and shown.text("#p-flight form button") == "Send"
    # Thirty minutes aren't more than thirty.
    shown.server.post(f"TOBT,AFR4,{at('06:40')}", Cdm_Role="AO")
    shown.until("return document.querySelector('#p-flight .facts .c-tobt').textContent === '06:40'")
    shown.type("#p-flight form [name=time]", "06:10")
    shown.click("#p-flight form button")
    shown.says("#p-flight .reply", "Accepted.")


def test_a_record_is_taken_back(page):
    """With what stood before it, and with its effect before: DLH2 has the place of DLH1, which takes it back again."""
    shown = form_of(page, "AO", "DLH1")
    shown.type("#p-flight form [name=time]", "06:20")
    shown.click("#p-flight form button")
    shown.says("#p-flight .reply", "Accepted. 2 flights changed: DLH1, DLH2.")
    assert shown.text("#p-flight .back") == "Take back: TOBT DLH1 06:00"
    shown.says("#p-flight .undo", "Its effect: start-up 06:00 (was 06:20), moves DLH2; +5 min of delay in all.")
    shown.click("#p-flight .back")
    shown.says("#p-flight .reply", "Taken back. 2 flights changed: DLH1, DLH2.")
    assert lines(shown)[-2:] == [f"TOBT,DLH1,{at('06:20')}", f"TOBT,DLH1,{at('06:00')}"]
    shown.until("return document.querySelector('#next tr[data-flight=DLH1]').innerText.includes('06:00')")
    assert shown.js("return document.querySelector('#p-flight form [name=time]').value") == "06:00"
    # What was taken back can be sent again in the same way.
    assert shown.text("#p-flight .back") == "Take back: TOBT DLH1 06:20"


@pytest.mark.parametrize("role,flight,kind,field,value,sent,back", [
    ("ATC", "DLH2", "RWY", "runway", "09", "RWY,DLH2,09", "RWY DLH2 27L"), ("ATC", "DLH2", "PRIO", "priority", "2", "PRIO,DLH2,2", "PRIO DLH2 5"),
    ("AP", "DLH2", "STAND", "stand", "B7", "STAND,DLH2,B7", "STAND DLH2 A12"), ("AP", "RYR6", "STAND", "stand", "B7", "STAND,RYR6,B7", None),
    ("NM", "AFR4", "CTOT", "time", "07:15", f"CTOT,AFR4,{at('07:15')}", "CTOT AFR4 07:10"), ("NM", "RYR6", "CTOT", "time", "07:00", f"CTOT,RYR6,{at('07:00')}", "CTOT RYR6 -"),
    ("AO", "KLM5", "TOBT", "time", "06:30", f"TOBT,KLM5,{at('06:30')}", None), ("AO", "DLH2", "CNL", None, None, "CNL,DLH2", None)])
def test_what_takes_a_record_back(page, role, flight, kind, field, value, sent, back):
    """The same kind with what stood before. Where nothing stood, a CTOT alone is taken away; a CNL never comes back."""
    shown = form_of(page, role, flight)
    shown.choose("#p-flight form [name=kind]", kind)
    if field == "runway":
        shown.choose("#p-flight form [name=runway]", value)
    elif field:
        shown.type(f"#p-flight form [name={field}]", value)
    shown.click("#p-flight form button")
    until(lambda: lines(shown)[-1] == sent)
    if kind == "CNL":
        shown.allowed.append("422 (Unprocessable Entity)")  # its effect may be asked just as it is sent
        shown.says("#h-f", "cancelled")
        assert not shown.find("#f-send").is_displayed()
        return
    shown.says("#p-flight .reply", "Accepted.")
    assert (shown.text("#p-flight .back") if back else shown.find("#p-flight .undo").is_displayed()) == (f"Take back: {back}" if back else False)
    if back:
        shown.click("#p-flight .back")
        shown.says("#p-flight .reply", "Taken back.")


def test_a_refused_record_after_one_that_was_accepted(page):
    """The reply alone says why it is refused; what takes a record back says of which one, once the reply is of another."""
    shown = form_of(page, "ATC", "DLH2")
    shown.choose("#p-flight form [name=kind]", "PRIO")
    shown.type("#p-flight form [name=priority]", "2")
    shown.click("#p-flight form button")
    shown.says("#p-flight .reply", "Accepted.")
    assert shown.text("#p-flight .undo").startswith("Take back: PRIO DLH2 5")
    accepted = len(lines(shown))
    shown.type("#p-flight form [name=priority]", "12")
    shown.says("#p-flight .effect", "It would be refused: ")
    shown.click("#p-flight form button")
    shown.says("#p-flight .reply", "Refused, RANGE: ")
    assert not shown.find("#p-flight .effect").is_displayed()
    assert shown.text("#p-flight .undo").startswith(f"For record {accepted}, which was accepted before: Take back: PRIO DLH2 5")
    shown.click("#p-flight .back")
    shown.says("#p-flight .reply", "Taken back.")
    assert shown.text("#p-flight .undo").startswith("Take back: PRIO DLH2 2")


def test_a_closure_is_taken_back(page):
    shown = page().open()
    shown.choose("#role", "ATC")
    shown.until("return document.querySelector('#b-send').hidden === false")
    shown.click("#b-send")
    shown.choose("#p-send [name=kind]", "CLOSE")
    shown.choose("#p-send .fields select", "27L")
    shown.type("#p-send [name=from]", "06:10")
    shown.type("#p-send [name=to]", "06:40")
    shown.click("#p-send form button")
    shown.says("#p-send .reply", "Accepted. 3 flights changed: BAW3, DLH1, DLH2.")
    shown.says("#p-send .undo", "Take back: OPEN 27L 06:10 06:40")
    shown.says("#p-send .undo", "Its effect: moves 3 flights: BAW3, DLH1, DLH2; −80 min of delay in all; 3 fewer late; max delay 28 min (was 35).")
    shown.click("#p-send .back")
    shown.says("#p-send .reply", "Taken back. 3 flights changed: BAW3, DLH1, DLH2.")
    assert lines(shown)[-1] == f"OPEN,27L,{at('06:10')},{at('06:40')}"


def test_nothing_is_taken_back_while_the_connection_is_lost(page):
    shown = form_of(page, "AO", "DLH1")
    shown.type("#p-flight form [name=time]", "06:20")
    shown.click("#p-flight form button")
    shown.says("#p-flight .reply", "Accepted.")
    shown.allowed += ["ERR_CONNECTION_REFUSED", "ERR_INCOMPLETE_CHUNKED_ENCODING", "ERR_CONNECTION_RESET", "ERR_EMPTY_RESPONSE"]
    shown.server.kill()
    shown.says("#conn", "CONNECTION LOST since ")
    shown.until("return document.querySelector('#p-flight .back').getAttribute('aria-disabled') === 'true'")
    shown.click("#p-flight .back")
    shown.says("#p-flight .reply", "Not sent. Nothing can be sent: the connection is lost.")
    shown.server.start()
    shown.says("#conn", "Connected again at ")
    shown.until("return document.querySelector('#p-flight .back').getAttribute('aria-disabled') === 'false'")
    shown.click("#p-flight .back")
    shown.says("#p-flight .reply", "Taken back.")


@pytest.mark.parametrize("width", [320, 1280, 3840])
def test_a_form_with_its_effect_keeps_the_rules(page, width):
    shown = page()
    size(shown.driver, width, 900)
    shown.open("#DLH1")
    shown.choose("#role", "AO")
    shown.says("#p-flight form", "Kind")
    shown.type("#p-flight form [name=time]", "06:20")
    shown.says("#p-flight .effect", "Its effect: start-up 06:20")
    shown.click("#p-flight form button")
    shown.says("#p-flight .undo", "Its effect: start-up 06:00")
    for rule in (RULES, TARGETS, CLIPPED, BROKEN):
        assert shown.js(rule) == []


# A2 left at 05:25 with a CTOT of 05:45 and takes off at 05:40; it is 05:59. EZY7 is ready at 07:15, and its window ended at 06:40.
LEFT = {"AP": ["FLT,A2,5"], "ATC": ["RWY,A2,27L"], "NM": [f"CTOT,A2,{at('05:45')}"]}


def left(page, path=""):
    """A page over that day, with the tower's role."""
    shown = page()
    fill(shown.server, LEFT)
    fill(shown.server, {"ATC": [f"OFF,A2,{at('05:25')}", f"CLOCK,{at('05:59')}"]})
    shown.open(path)
    shown.choose("#role", "ATC")
    shown.until("return document.querySelector('#b-send').hidden === false")
    return shown


def test_a_row_of_what_to_do_for_each_flight(page):
    """Why, since when, what to do, and a button: for A2, which is overdue and missed its window, in one row, and for EZY7, which is blocked at
    its CTOT, when it could take off first."""
    shown = left(page)
    shown.click("#warnings [data-panel=act]")
    shown.until("return document.querySelectorAll('#act > li').length === 2 && document.querySelectorAll('#act button').length === 1")
    shown.says("#act", "The first free take-off is 07:15, with the start-up 07:00: ask the Network Manager for a CTOT of about that time.")
    blocked, overdue = shown.texts("#act > li")
    assert overdue.startswith("OVERDUE, MISSED A2 since before this page was opened; moved last by OFF 05:25, ATC ")
    assert "its TTOT 05:40 is more than 5 minutes ago, and no AIR has come. If it has taken off, send AIR" in overdue and "Tell the Network Manager." in overdue
    assert blocked.startswith("BLOCKED EZY7 since before this page was opened; moved last by CTOT 06:30, NM ") and "Ask its operator for an earlier TOBT." in blocked
    assert shown.texts("#act button") == ["Put AIR 05:40 into the form of A2"]
    assert shown.text("#h-act") == "What to do 2 rows, the most urgent first"
    # A new one says since when; one that has ended goes.
    shown.server.post(f"CTOT,BAW3,{at('05:00')}", Cdm_Role="NM")
    shown.says("#act", "BLOCKED BAW3 since ")
    shown.server.post(f"AIR,A2,{at('05:41')}", Cdm_Role="ATC")
    shown.until("return !document.querySelector('#act').innerText.includes('A2')")
    shown.server.post(["CTOT,EZY7,-", "CTOT,BAW3,-"], Cdm_Role="NM")
    shown.says("#h-act", "There is no warning.")


def test_overdue_offers_air_with_its_time(page):
    """In the form of the flight, of which its effect is asked; it is sent from there alone."""
    shown = left(page, "#act")
    shown.click("#act button[data-of='A2 AIR']")
    shown.says("#p-flight form code", f"AIR,A2,{at('05:40')}")
    shown.until("return location.hash === '#A2' && document.activeElement === document.querySelector('#p-flight form button')")
    shown.says("#p-flight .effect", "Its effect: airborne (was off-block), moves no other flight.")
    assert shown.texts("#f-warnings button")[0] == "Put AIR 05:40 into the form"
    assert f"AIR,A2,{at('05:40')}" not in lines(shown)
    shown.click("#p-flight form button")
    shown.says("#h-f", "airborne")


def test_a_record_that_lacks_a_value_is_not_sent(page):
    """BAW3 could have started up at 06:00, and it is 06:10. Its button leads to the empty box, in which one types at once; Enter in it says what it takes."""
    shown = page()
    fill(shown.server, {"ATC": [f"CLOCK,{at('06:10')}"]})
    size(shown.driver, 1280, 500)
    shown.open("#BAW3")
    shown.choose("#role", "ATC")
    shown.until("return document.querySelectorAll('#f-warnings button').length === 1 && document.querySelector('#p-flight form') !== null")
    before = lines(shown)
    shown.click("#f-warnings button")
    shown.says("#p-flight form code", "OFF,BAW3,")
    assert shown.js("return document.activeElement.name") == "time"
    shown.keys(Keys.ENTER)
    shown.says("#p-flight .reply", "Not sent. Give a time, such as 06:10.")
    box = "const one = document.querySelector('#p-flight form [name=time]'); return [one.getAttribute('aria-invalid'), one === document.activeElement]"
    described = "return document.activeElement.getAttribute('aria-describedby').split(' ').map((id) => document.getElementById(id).innerText).at(-1)"
    assert shown.js(box) == ["true", True] and shown.js(described) == "Not sent. Give a time, such as 06:10."
    assert lines(shown) == before
    shown.keys("0605")
    assert shown.js(box) == [None, True] and not shown.find("#p-flight .reply").is_displayed()
    shown.says("#p-flight .effect", "Its effect: off-block")
    shown.keys(Keys.ENTER)
    shown.says("#p-flight .reply", "Accepted.")
    assert lines(shown) == [*before, f"OFF,BAW3,{at('06:05')}"]
    # The reply is in sight, in the window and in its panel.
    seen = """const [one, panel] = ['#p-flight .reply', '#p-flight'].map((place) => document.querySelector(place).getBoundingClientRect());
        return one.top >= panel.top && one.bottom <= Math.min(panel.bottom, innerHeight)"""
    assert shown.js(seen)


def test_a_value_that_is_no_time_is_asked_for_by_its_name(page):
    """In the form of a desk and in that of the what-if, where nothing is added either."""
    shown = form_of(page, "ATC", "DLH1")
    before = lines(shown)
    shown.choose("#p-flight form [name=kind]", "PRIO")
    shown.find("#p-flight form [name=priority]").clear()
    for button in ("Send", "Add to what-if"):
        shown.js("[...document.querySelectorAll('#p-flight form button')].find((one) => one.innerText === arguments[0]).click()", button)
        shown.says("#p-flight .reply", "Not sent. Give the priority: ")
        assert shown.js("return document.activeElement.name") == "priority"
        shown.choose("#p-flight form [name=kind]", "OFF")
        assert not shown.find("#p-flight .reply").is_displayed()
        shown.choose("#p-flight form [name=kind]", "PRIO")
        shown.find("#p-flight form [name=priority]").clear()
    shown.js("location.hash = '#what-if'")
    shown.until("return document.querySelector('#p-what-if form.send [name=kind]') !== null")
    shown.click("#p-what-if form.send button")
    shown.says("#p-what-if form.send .reply", "Not sent. Give the flight: 1 to 7 of A-Z and 0-9.")
    assert shown.js(READ).strip() == "SCENARIO,NAME" and lines(shown) == before


def test_who_may_not_send_has_no_button(page):
    shown = left(page, "#act")
    shown.says("#act button", "Put AIR 05:40 into the form of A2")
    shown.choose("#role", "AO")
    shown.says("#act button", "Put TOBT into the form of EZY7")
    assert len(shown.texts("#act button")) == 1
    shown.choose("#role", "read only")
    shown.until("return document.querySelectorAll('#act button').length === 0")
    assert len(shown.texts("#act > li")) == 2


# AFR4's window is closed; X1 is ready at 06:15, and BAW3 and DLH1 have the places of its window, 06:04 to 06:19. EZY7's window has ended.
HELD = {"AP": ["FLT,X1,5"], "ATC": ["RWY,X1,27L", f"CLOSE,09,{at('07:00')},{at('07:30')}"], "AO": [f"TOBT,X1,{at('06:00')}"], "NM": [f"CTOT,X1,{at('06:09')}"]}


def test_what_cannot_help_is_not_offered(page):
    """No priority where the window is closed or has ended, another runway than its own, and a smaller number. Who may not send is told whom to ask."""
    shown = page()
    fill(shown.server, HELD)
    offered = {"ATC": {"AFR4": ["RWY 27L"], "X1": ["RWY 09", "PRIO 4"], "EZY7": []}, "AO": {"AFR4": ["TOBT"], "X1": ["TOBT"], "EZY7": ["TOBT"]},
               "NM": {"AFR4": ["CTOT"], "X1": ["CTOT"], "EZY7": ["CTOT"]}}
    said = {"ATC": "Ask its operator for an earlier TOBT. Or ask the Network Manager for a later CTOT than 06:30.",
            "AO": "Send an earlier TOBT. Or ask the Network Manager for a later CTOT than 06:30.", "NM": "Ask its operator for an earlier TOBT. Or send a later CTOT than 06:30."}
    shown.open("#act")
    for role, flights in offered.items():
        shown.choose("#role", role)
        wanted = [f"Put {record} into the form of {name}" for name, records in flights.items() for record in records]
        shown.until("return [...document.querySelectorAll('#act button')].map((one) => one.textContent).sort().join() === arguments[0]", ",".join(sorted(wanted)))
        shown.says("#act", said[role])
    # In the flight's panel it is the same, and the press puts the value into the form.
    shown.choose("#role", "ATC")
    shown.js("location.hash = '#X1'")
    shown.until("return document.querySelectorAll('#f-warnings button').length === 2")
    shown.says("#p-flight form", "Kind")
    for record, line in (("RWY 09", "RWY,X1,09"), ("PRIO 4", "PRIO,X1,4")):
        shown.js("[...document.querySelectorAll('#f-warnings button')].find((one) => one.innerText.includes(arguments[0])).click()", record)
        shown.says("#p-flight form code", line)
        assert shown.js("return document.activeElement === document.querySelector('#p-flight form .sends')")


def test_the_window_of_a_ctot(page):
    """From 5 minutes before it to 10 minutes after it, and as TOL says from then on; of a flight that is blocked at it, when it could take off first."""
    shown = page().open("#AFR4")
    shown.says("#f-ctot", "CTOT 07:10, window 07:05 to 07:20.")
    assert "free" not in shown.text("#f-ctot")
    shown.js("location.hash = '#RYR6'")
    shown.says("#waits", "CLOSURE")
    assert not shown.find("#f-ctot").is_displayed()
    shown.js("location.hash = '#EZY7'")
    shown.says("#f-ctot", "CTOT 06:30, window 06:25 to 06:40. The first free take-off is 07:15, with the start-up 07:00: ask the Network Manager")
    assert shown.texts("#waits li") == ["C from 07:15 on CTOT to the end"]
    shown.server.post("TOL,2,20", Cdm_Role="NM")
    shown.js("location.hash = '#AFR4'")
    shown.says("#f-ctot", "CTOT 07:10, window 07:08 to 07:30.")


def test_a_runway_is_closed_from_its_own_head(page):
    """From NOW on for half an hour, if nobody says otherwise: RYR6, AFR4 aren't in that time. From 07:00 on it is AFR4's window."""
    shown = page().open()
    assert shown.texts(".band h3 button") == []
    shown.choose("#role", "ATC")
    shown.until("return document.querySelectorAll('.band h3 button').length === 2")
    before = lines(shown)
    shown.click("#rw-09 button")
    assert shown.js("return document.activeElement.name") == "from"
    shown.says("form[aria-label='Close runway 09']", f"to 06:20 Close 09 Not now Goes out as CLOSE,09,{at('05:50')},{at('06:20')}")
    shown.says("form[aria-label='Close runway 09'] .effect", "Its effect: moves no flight.")
    shown.type(".band [name=from]", "0700")
    shown.choose(".band [name=length]", "45 min")
    shown.says("form[aria-label='Close runway 09']", f"to 07:45 Close 09 Not now Goes out as CLOSE,09,{at('07:00')},{at('07:45')}")
    shown.says("form[aria-label='Close runway 09'] .effect", "Its effect: 1 flight loses its CTOT: AFR4; −13 min of delay in all.")
    assert lines(shown) == before
    shown.click("form[aria-label='Close runway 09'] button:not([type])")
    shown.says(".band .reply", "Accepted. This flight changed: AFR4.")
    assert lines(shown) == [*before, f"CLOSE,09,{at('07:00')},{at('07:45')}"]
    shown.says(".band .undo", "Take back: OPEN 09 07:00 07:45 It opens what another CLOSE has closed as well.")
    shown.click(".band .back")
    shown.says(".band .reply", "Taken back. This flight changed: AFR4.")
    # Escape puts it away, and the focus is at the button again.
    shown.js("document.querySelector('.band [name=from]').focus()")
    shown.keys(Keys.ESCAPE)
    shown.until("return document.querySelector('.band form') === null")
    assert shown.js("return document.activeElement === document.querySelector('#rw-09 button')")
    # A time that is none closes nothing, and a window that is over is asked about.
    shown.click("#rw-27L button")
    shown.type(".band [name=from]", "0500")
    shown.click(".band form button:not([type])")
    shown.says(".band .reply", "Look again. 05:30 is 20 min before NOW, 05:50.")
    shown.choose("#role", "AO")
    shown.until("return document.querySelectorAll('.band h3 button, .band form').length === 0")


def test_the_form_of_a_closure(page):
    """What one types as it opens takes the place of NOW. What is no time is said beside the box, and can't be sent; nor can what was sent already."""
    shown = page().open()
    shown.choose("#role", "ATC")
    shown.until("return document.querySelectorAll('.band h3 button').length === 2")
    before = lines(shown)
    form = "form[aria-label='Close runway 09']"
    state = """return [document.querySelector('.band form .sends:not(.back)').disabled, document.querySelector('.band [name=from]').getAttribute('aria-invalid')]"""
    shown.click("#rw-09 button")
    shown.says(form, "to 06:20 Close 09")
    shown.keys("07")
    shown.says(form, "From when on? Give a time, such as 05:50.")
    assert shown.js(state) == [True, "true"]
    shown.keys(Keys.ENTER)
    shown.keys("00")
    shown.says(form, "to 07:30 Close 09 Not now")
    assert shown.js(state) == [False, None] and lines(shown) == before
    shown.keys(Keys.ENTER)
    shown.says(".band .reply", "Accepted.")
    shown.until("return document.querySelector('.band form .sends:not(.back)').disabled")
    assert shown.js("return getComputedStyle(document.querySelector('.band form .sends:not(.back)')).backgroundColor") != colour(shown, "link")
    shown.says(form, "Done")
    shown.click(".band .back")
    shown.says(".band .reply", "Taken back.")
    shown.until("return document.querySelector('.band form .sends:not(.back)').disabled")
    shown.choose(".band [name=length]", "45 min")
    shown.until("return !document.querySelector('.band form .sends:not(.back)').disabled")
    assert lines(shown) == [*before, f"CLOSE,09,{at('07:00')},{at('07:30')}", f"OPEN,09,{at('07:00')},{at('07:30')}"]


@pytest.mark.parametrize("width", [320, 1280, 3840])
def test_what_to_do_keeps_the_rules(page, width):
    """Also with a runway's own form open."""
    shown = page()
    fill(shown.server, LEFT)
    fill(shown.server, {"ATC": [f"OFF,A2,{at('05:25')}", f"CLOCK,{at('05:59')}"]})
    size(shown.driver, width, 900)
    shown.open()
    shown.choose("#role", "ATC")
    shown.until("return document.querySelectorAll('.band h3 button').length === 2")
    shown.click("#rw-09 button")
    shown.says(".band .effect", "Its effect: moves no flight.")
    for path in ("", "#act"):
        shown.js("location.hash = arguments[0]", path)
        if path:
            shown.says("#act", "The first free take-off is 07:15")
        for rule in (RULES, TARGETS, CLIPPED, BROKEN):
            assert shown.js(rule) == [], path


READ = "return document.querySelector('#scenario').value"
COMPARE = "document.querySelector('#p-what-if form button').click()"


def what_if(shown, text):
    """Writes scenarios and compares them."""
    shown.js("location.hash = '#what-if'")
    shown.says("#scenario-h", "A time is HH:MM UTC")
    shown.js("const box = document.querySelector('#scenario'); box.value = arguments[0]; box.dispatchEvent(new Event('input'))", text)
    shown.js(COMPARE)
    shown.says("#wi-table", "difference")


def test_a_what_if_is_made_by_the_same_form(page):
    """From the form of a desk, and by one of its own; nothing is sent. RYR6 takes off at 06:30 on 27L, 8 minutes earlier than its start-up 06:38."""
    shown = form_of(page, "ATC", "RYR6")
    before = lines(shown)
    shown.choose("#p-flight form [name=kind]", "RWY")
    shown.choose("#p-flight form [name=runway]", "27L")
    shown.js("[...document.querySelectorAll('#p-flight form button')].find((one) => one.innerText === 'Add to what-if').click()")
    shown.says("#p-flight .reply", "Added to scenario A; nothing is sent. Open the what-if")
    shown.click("#p-flight .reply a")
    shown.until("return document.querySelector('#p-what-if form.send [name=kind]') !== null")
    assert shown.js(READ) == "SCENARIO,A\nRWY,RYR6,27L\n"
    shown.choose("#p-what-if form.send [name=kind]", "TOBT")
    shown.type("#p-what-if form.send [name=flight]", "DLH1")
    shown.type("#p-what-if form.send [name=time]", "0620")
    shown.says("#p-what-if form.send .effect", "Its effect: start-up 06:20 (was 06:00), moves DLH2; −5 min of delay in all.")
    shown.click("#p-what-if form.send button")
    shown.says("#p-what-if form.send .reply", "Added to scenario A; nothing is sent.")
    assert shown.js(READ) == "SCENARIO,A\nRWY,RYR6,27L\nTOBT,DLH1,06:20\n"
    shown.js(COMPARE)
    shown.says("#wi-flights", "RYR6 06:38 06:10 −28 min")
    assert lines(shown) == before


def test_a_what_if_keeps_its_lines(page):
    """Over a reload as they were written; in a link, which another tab opens, with whole times."""
    shown = page().open()
    text, whole = "SCENARIO,LATE\nTOBT,DLH1,06:20", f"SCENARIO,LATE\nTOBT,DLH1,{at('06:20')}"
    what_if(shown, text)
    link = shown.js("return document.querySelector('#wi-link').href")
    assert shown.find("#wi-link").is_displayed()
    shown.driver.refresh()
    shown.is_ready()
    shown.until("return document.querySelector('#scenario')?.value === arguments[0]", text)
    first = shown.tab("?" + link.partition("/?")[2])
    shown.says("#scenario-h", "A time is HH:MM UTC")
    assert shown.js(READ) == whole
    assert shown.js("return [location.search, location.hash]") == ["", "#what-if"]
    shown.close_tab(first)


SWAP = f"SCENARIO,SWAP\nPRIO,DLH2,1\nRWY,RYR6,27L\nSCENARIO,NONE\nTOBT,BAW3,{at('06:00')}"


def test_the_records_of_a_scenario_are_sent_at_once(page):
    """Of the scenario that is shown, in one body."""
    shown = page().open()
    shown.choose("#role", "ATC")
    shown.until("return document.querySelector('#b-send').hidden === false")
    before = lines(shown)
    what_if(shown, SWAP)
    assert shown.text("#wi-send") == "Send these 2 records of SWAP" and lines(shown) == before
    shown.click("#wi-send")
    shown.says("#wi-sent", f"Accepted. All of them, up to record {len(before) + 2}: PRIO DLH2 1, RWY RYR6 27L.")
    assert lines(shown) == [*before, "PRIO,DLH2,1", "RWY,RYR6,27L"]
    assert len({record["at"] for record in shown.server.records()[-2:]}) == 1 and not shown.find("#wi-send").is_displayed()
    # They are taken back at once too, the last one first, with their effect before: RYR6 is 28 minutes late again, as it was.
    assert shown.text("#wi-back") == "Take back: RWY RYR6 09, PRIO DLH2 5"
    shown.says("#wi-back-effect", "+28 min of delay in all")
    shown.click("#wi-back")
    shown.says("#wi-sent", f"Taken back. All of them, up to record {len(before) + 4}: RWY RYR6 09, PRIO DLH2 5.")
    assert lines(shown)[-2:] == ["RWY,RYR6,09", "PRIO,DLH2,5"]


def test_records_that_cannot_all_be_taken_back(page):
    """A RATE was another one before, which the page doesn't know: it says so, and what takes back the other."""
    shown = page().open()
    shown.choose("#role", "ATC")
    shown.until("return document.querySelector('#b-send').hidden === false")
    what_if(shown, f"SCENARIO,A\nRATE,27L,{at('07:00')},{at('07:10')},1\nPRIO,DLH2,1")
    shown.click("#wi-send")
    shown.says("#wi-sent", "RATE 27L 07:00 07:10 1, PRIO DLH2 1. What takes back RATE 27L 07:00 07:10 1 isn’t known here; of the others: PRIO DLH2 5.")
    assert not shown.find("#wi-back").is_displayed()


def test_records_of_a_scenario_are_tried_first(page):
    """Meanwhile RYR6 is cancelled: none of them is sent, and the line that is refused is named."""
    shown = page().open()
    shown.choose("#role", "ATC")
    shown.until("return document.querySelector('#b-send').hidden === false")
    what_if(shown, SWAP)
    shown.says("#wi-note", "In the runways’ bands")
    shown.server.post("CNL,RYR6", Cdm_Role="AO")
    before = lines(shown)
    shown.click("#wi-send")
    shown.says("#wi-sent", "Not sent. Line 3: RYR6 was cancelled by record")
    assert "None of them is sent." in shown.text("#wi-sent") and lines(shown) == before
    assert shown.js("return document.activeElement.id") == "wi-sent"


def test_who_may_not_send_all_sends_none(page):
    """PRIO is the tower's, TOBT the operator's; a desk that only reads has no such button either."""
    shown = page().open()
    for role in ("AO", "read only"):
        shown.choose("#role", role)
        what_if(shown, f"SCENARIO,A\nPRIO,DLH2,1\nTOBT,BAW3,{at('06:00')}")
        assert not shown.find("#wi-send").is_displayed()
