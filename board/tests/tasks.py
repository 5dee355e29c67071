#!/usr/bin/python3 -B
"""What people do with the page, done in the browser, counted in presses and seconds: ten tasks of a supervisor, four of a handler on a phone,
three of an operator and three of a planner.

    board/tests/tasks.py [--before CHECKOUT] [--only WORD]

It prints a table. --before: the page of another checkout, which does the tasks in its own way where it can. A press is a click, a key, or a choice
from a list, which is two. Nobody thinks meanwhile: the seconds are those of the page and of the server. A task ends when the page shows that it is
done."""
import argparse
import pathlib
import sys
import tempfile
import time
from collections.abc import Callable
from typing import Any, NamedTuple

from browser import Page, fill, missing, size
from conftest import Server

AIRPORT = "DAY,2026-01-15\nRUNWAY,18,10,2\nRUNWAY,25C,10,2\nTAXI,*,18,14\nTAXI,*,25C,11\n"
DESKTOP, PHONE = (1280, 900), (360, 740)


def at(time: str) -> str:
    return f"2026-01-15T{time}Z"


# 06:40. DLH31 left at 06:15 and is overdue; RYR1 could have gone at 06:30; DLH20T has a CTOT of 06:50 and is ready at 07:06, when its window is over.
FLIGHTS = {"DLH31": ("18", "06:15"), "RYR1": ("18", "06:30"), "DLH20T": ("25C", "06:55"), "AFR27": ("25C", "06:45"), "DLH60": ("25C", "06:45"),
           "KLM645": ("25C", "06:45"), "EWG5": ("18", "06:50"), "EWG8": ("25C", "06:50"), "DLH77": ("25C", "06:50"), "BAW90": ("18", "07:00"),
           "SWR22": ("25C", "07:05"), "THY53": ("18", "07:10")}
DAY = {"AP": [f"FLT,{name},5" for name in FLIGHTS], "ATC": [f"RWY,{name},{runway}" for name, (runway, _) in FLIGHTS.items()],
       "AO": [f"TOBT,{name},{at(tobt)}" for name, (_, tobt) in FLIGHTS.items()], "NM": [f"CTOT,DLH20T,{at('06:50')}"]}
THEN = {"ATC": [f"OFF,DLH31,{at('06:15')}", f"CLOCK,{at('06:40')}"]}
DESKS = {"atc": 'role = "ATC"\nclock = true', "ap": 'role = "AP"', "ao": 'role = "AO"', "nm": 'role = "NM"', "ground": 'role = "GH"\nflights = ["DLH"]'}


class Hand:
    """Somebody at the page: what is pressed is counted."""

    def __init__(self, shown: Page) -> None:
        self.shown, self.presses, self.began = shown, 0, time.monotonic()

    def begin(self) -> None:
        """The task begins here."""
        self.presses, self.began = 0, time.monotonic()

    def press(self, selector: str) -> None:
        self.shown.until("return [...document.querySelectorAll(arguments[0])].some((one) => one.checkVisibility())", selector)
        self.shown.js("const one = [...document.querySelectorAll(arguments[0])].find((one) => one.checkVisibility()); one.scrollIntoView({block: 'center'});"
                      "for (const old of document.querySelectorAll('[data-hand]')) delete old.dataset.hand; one.dataset.hand = 'yes'", selector)
        self.shown.find("[data-hand]").click()
        self.presses += 1

    def key(self, keys: str) -> None:
        self.shown.keys(keys)
        self.presses += len(keys)

    def type(self, selector: str, text: str) -> None:
        """A press on the field, its text chosen if there is some, and a key each."""
        from selenium.webdriver.common.keys import Keys
        self.press(selector)
        field = self.shown.find(selector)
        if field.get_attribute("value"):
            field.send_keys(Keys.CONTROL, "a")
            self.presses += 1
        field.send_keys(text)
        self.presses += len(text)

    def choose(self, selector: str, text: str) -> None:
        """Two presses, unless it is chosen already."""
        self.shown.until("return document.querySelector(arguments[0]) !== null", selector)
        if self.shown.js("const one = document.querySelector(arguments[0]); return one.selectedOptions[0]?.textContent", selector) == text:
            return
        self.shown.choose(selector, text)
        self.presses += 2

    def sees(self, selector: str, text: str) -> None:
        self.shown.until("return [...document.querySelectorAll(arguments[0])].some((one) => one.checkVisibility() && one.innerText.replace(/\\s+/g, ' ').includes(arguments[1]))",
                         selector, text)


Way = Callable[[Hand], None]


class Task(NamedTuple):
    """`now`: how it is done; `before`: how it was, None if it couldn't be; `most`: so many presses; `prepare`: what is there when it begins."""
    who: str
    what: str
    most: int
    now: Way
    before: Way | None = None
    prepare: Way | None = None


def put_kind(hand: Hand, root: str, kind: str, *values: tuple[str, str]) -> None:
    """A record in a form: its kind, then a field and its value each; a runway and a length are chosen."""
    hand.choose(f"{root} [name=kind]", kind)
    for name, value in values:
        if name == "runway":
            hand.choose(f"{root} [name=runway]", value)
        else:
            hand.type(f"{root} [name={name}]", value)


def scenario(hand: Hand, text: str) -> None:
    """Scenarios that are typed and compared."""
    hand.press("#b-what-if")
    hand.sees("#scenario-h", "CLOSE,")
    hand.type("#scenario", text)
    hand.press("#p-what-if form button:not([type])")
    hand.sees("#wi-table", "difference")


# The supervisor

def what_to_do(hand: Hand) -> None:
    hand.press("#warnings [data-panel=act]")
    for name in ("DLH20T", "DLH31", "RYR1"):
        hand.sees("#act", name)


def what_to_do_before(hand: Hand) -> None:
    for kind, name in (("BLOCKED", "DLH20T"), ("OVERDUE", "DLH31"), ("PAST", "RYR1")):
        hand.press(f"#warnings .{kind} a")
        hand.sees("#h-f", name)
        hand.sees("#f-warnings", kind)


def first_free(hand: Hand) -> None:
    hand.press("#warnings [data-panel=act]")
    hand.sees("#act .free", "The first free take-off is")


def first_free_before(hand: Hand) -> None:
    scenario(hand, "SCENARIO,LEFT\nCTOT,DLH20T,-\nPRIO,DLH20T,9")
    hand.sees("#wi-flights", "DLH20T")


def airborne(hand: Hand) -> None:
    hand.press("#warnings .OVERDUE a")
    hand.press("#f-warnings button")
    hand.sees("#p-flight form code", f"AIR,DLH31,{at('06:29')}")
    hand.press("#p-flight form .sends:not(.back)")
    hand.sees("#h-f", "airborne")


def airborne_before(hand: Hand) -> None:
    hand.press("#warnings .OVERDUE a")
    hand.press("#f-warnings button")
    hand.type("#p-flight form [name=time]", "0629")
    hand.press("#p-flight form button:not([type])")
    hand.sees("#h-f", "airborne")


def off_block(hand: Hand) -> None:
    hand.press("#warnings .PAST a")
    hand.press("#f-warnings button")
    hand.type("#p-flight form [name=time]", "0638")
    hand.press("#p-flight form button:not([type])")
    hand.sees("#h-f", "off-block")


CLOSED = f"CLOSE,25C,{at('06:40')},{at('07:10')}"


def close(hand: Hand) -> None:
    hand.press("#rw-25C button")
    hand.sees(".band .effect", "Its effect: moves")
    hand.press(".band form .sends:not(.back)")
    hand.sees(".band .reply", "Accepted.")


def close_before(hand: Hand) -> None:
    scenario(hand, "SCENARIO,A\nCLOSE,25C,06:40,07:10")
    close_by_form(hand)


def close_by_form(hand: Hand) -> None:
    hand.press("#b-send")
    put_kind(hand, "#p-send", "CLOSE", ("runway", "25C"), ("from", "0640"), ("to", "0710"))
    hand.press("#p-send form button:not([type])")
    hand.sees("#p-send .reply", "Accepted.")


def reopen(hand: Hand) -> None:
    hand.sees(".band .undo", "Its effect: moves")
    hand.press(".band .back")
    hand.sees(".band .reply", "Taken back.")


def reopen_before(hand: Hand) -> None:
    scenario(hand, "SCENARIO,A\nOPEN,25C,06:40,07:10")
    hand.press("#b-send")
    put_kind(hand, "#p-send", "OPEN", ("runway", "25C"), ("from", "0640"), ("to", "0710"))
    hand.press("#p-send form button:not([type])")
    hand.sees("#p-send .reply", "Accepted.")


def of_flight(name: str, kind: str, field: str, value: str) -> Way:
    """A record of a flight, sent once its effect is known."""
    def way(hand: Hand) -> None:
        hand.press(f"#next tr[data-flight={name}] .c-ttot")
        put_kind(hand, "#p-flight form", kind, (field, value))
        hand.sees("#p-flight .effect", "Its effect: start-up")
        hand.press("#p-flight form .sends:not(.back)")
        hand.sees("#p-flight .reply", "Accepted.")
    return way


def of_flight_before(name: str, kind: str, field: str, value: str) -> Way:
    """Its effect by a what-if, then the record."""
    def way(hand: Hand) -> None:
        scenario(hand, f"SCENARIO,A\n{kind},{name},{value}")
        hand.press(f"#next tr[data-flight={name}] th a")
        put_kind(hand, "#p-flight form", kind, (field, value))
        hand.press("#p-flight form button:not([type])")
        hand.sees("#p-flight .reply", "Accepted.")
    return way


TWO = "SCENARIO,A\nRWY,AFR27,18\nPRIO,KLM645,1\nSCENARIO,B\nRATE,25C,06:50,07:50,1"


def better(hand: Hand) -> None:
    scenario(hand, TWO)
    hand.press("#wi-send")
    hand.sees("#wi-sent", "Accepted. All of them")


def better_before(hand: Hand) -> None:
    scenario(hand, TWO)
    for name, kind, field, value in (("AFR27", "RWY", "runway", "18"), ("KLM645", "PRIO", "priority", "1")):
        hand.press(f"#next tr[data-flight={name}] th a")
        put_kind(hand, "#p-flight form", kind, (field, value))
        hand.press("#p-flight form button:not([type])")
        hand.sees("#p-flight .reply", "Accepted.")


def find(hand: Hand) -> None:
    hand.key("/")
    hand.shown.until("return document.activeElement.name === 'flight'")
    hand.key("KLM")
    hand.press("#next tr[data-flight=KLM645] .c-ttot")
    hand.sees("#why-note", "min, take-off")


def find_before(hand: Hand) -> None:
    hand.type("#filter [name=flight]", "KLM")
    hand.press("#next tr[data-flight=KLM645] th a")
    hand.sees("#why-note", "min, take-off")


# The handler, on a phone

CARD = "#mine li[data-flight=DLH60]"


def own(hand: Hand) -> None:
    hand.sees(f"{CARD} .tsat", "06:")


def own_before(hand: Hand) -> None:
    hand.type("#filter [name=op]", "DLH")
    hand.sees("#next tr[data-flight=DLH60]", "06:")


def later(hand: Hand) -> None:
    hand.press(f"{CARD} [aria-label='TOBT 10 minutes later']")
    hand.sees(f"{CARD} .effect", "Its effect: start-up")
    hand.press(f"{CARD} .sends:not(.back)")
    hand.sees(f"{CARD} .reply", "Accepted.")


def exactly(hand: Hand) -> None:
    hand.type(f"{CARD} input", "0652")
    hand.sees(f"{CARD} .effect", "Its effect: start-up")
    hand.press(f"{CARD} .sends:not(.back)")
    hand.sees(f"{CARD} .reply", "Accepted.")


def tobt_before(time: str) -> Way:
    def way(hand: Hand) -> None:
        scenario(hand, f"SCENARIO,A\nTOBT,DLH60,{time[:2]}:{time[2:]}")
        hand.press("#p-what-if .x-close")
        hand.press("#next tr[data-flight=DLH60] th a")
        put_kind(hand, "#p-flight form", "TOBT", ("time", time))
        hand.press("#p-flight form button:not([type])")
        hand.sees("#p-flight .reply", "Accepted.")
    return way


def other_moves(hand: Hand) -> None:
    """Somebody else moves a flight of theirs."""
    hand.shown.server.post(f"CLOSE,25C,{at('06:50')},{at('07:20')}", "atc")


def notice(hand: Hand) -> None:
    hand.shown.until("return document.title.includes(', was 06:')")


# The operator

def of_operators(hand: Hand) -> None:
    hand.type("#filter [name=op]", "DLH,EWG")
    hand.sees("#filtered", "placed")
    hand.sees("#f-warned", "DLH20T")


def delays(hand: Hand) -> None:
    hand.shown.js("window.saved = 0; URL.createObjectURL = () => { window.saved += 1; return '#'; }")
    hand.choose("#filter [name=sort]", "delay")
    hand.press("#b-csv")
    hand.shown.until("return window.saved === 1")


def link(hand: Hand) -> None:
    hand.press("#next tr[data-flight=DLH60] .c-ttot")
    hand.press("#f-link")
    hand.shown.until("return document.querySelector('#f-link').textContent === 'Copied' || !document.querySelector('#f-address').hidden")


# The planner

THREE = "SCENARIO,A\nCLOSE,25C,06:50,07:10\nSCENARIO,B\nCLOSE,25C,07:00,07:20\nSCENARIO,C\nCLOSE,25C,07:10,07:30"


def three(hand: Hand) -> None:
    scenario(hand, THREE)
    hand.shown.until("return document.querySelectorAll('#wi-causes tbody tr').length === 5 && document.querySelectorAll('#rw-25C + .scroll .wi').length === 3")


def any_two(hand: Hand) -> None:
    hand.choose("#wi-answer select", "B")
    hand.shown.until("return document.querySelector('#wi-flights').parentNode.tHead.rows[0].cells[1].textContent === 'B'")


def kept(hand: Hand) -> None:
    hand.shown.driver.refresh()
    hand.presses += 1
    hand.shown.until("return document.querySelector('#scenario')?.value.startsWith('SCENARIO,A')")


SUPERVISOR, HANDLER, OPERATOR, PLANNER = "supervisor", "handler", "operator", "planner"
TASKS = [
    Task(SUPERVISOR, "what to do about each flight with a warning", 1, what_to_do, what_to_do_before),
    Task(SUPERVISOR, "when a flight that is blocked at its CTOT could take off first", 1, first_free, first_free_before),
    Task(SUPERVISOR, "say that an overdue flight has taken off, at its TTOT", 3, airborne, airborne_before),
    Task(SUPERVISOR, "say that a flight has left its stand", 8, off_block, off_block),
    Task(SUPERVISOR, "close a runway for half an hour, its effect known before", 2, close, close_before),
    Task(SUPERVISOR, "take that back, its effect known before", 1, reopen, reopen_before, close),
    Task(SUPERVISOR, "send a flight to the other runway, its effect known before", 6, of_flight("DLH77", "RWY", "runway", "18"), of_flight_before("DLH77", "RWY", "runway", "18")),
    Task(SUPERVISOR, "put a flight ahead, its effect known before", 7, of_flight("DLH77", "PRIO", "priority", "1"), of_flight_before("DLH77", "PRIO", "priority", "1")),
    Task(SUPERVISOR, "compare two scenarios, and send the two records of one", 76, better, better_before),
    Task(SUPERVISOR, "find a flight, and why it waits", 5, find, find_before),
    Task(HANDLER, "the start-up of one's own flights", 0, own, own_before),
    Task(HANDLER, "a TOBT ten minutes later, its effect known before", 2, later, tobt_before("0655")),
    Task(HANDLER, "another TOBT, typed, its effect known before", 7, exactly, tobt_before("0652")),
    Task(HANDLER, "learn that a start-up has moved, without looking at the page", 0, notice, None, other_moves),
    Task(OPERATOR, "totals, delay and warnings of two operators", 8, of_operators),
    Task(OPERATOR, "a file of the flights, the greatest delay first", 3, delays),
    Task(OPERATOR, "copy a link to a flight in the page", 2, link),
    Task(PLANNER, "three closures on one axis of time, and the causes of each", 102, three),
    Task(PLANNER, "the difference between two of them", 2, any_two, None, three),
    Task(PLANNER, "the scenarios again after a reload", 1, kept, None, three),
]


def opened(driver: Any, server: Any, task: Task) -> Hand:
    """The page of who does a task, as it begins."""
    driver.execute_cdp_cmd("Network.clearBrowserCookies", {})
    size(driver, *(PHONE if task.who == HANDLER else DESKTOP))
    shown = Page(driver, server)
    if task.who == HANDLER:
        shown.open(ready=False)
        hand = Hand(shown)
        hand.type("#p-sign-in [name=desk]", "ground")
        hand.type("#p-sign-in [name=token]", "token-ground")
        hand.press("#p-sign-in form button:not([type])")
        shown.is_ready()
    else:
        shown.open()
        shown.choose("#role", {SUPERVISOR: "ATC", OPERATOR: "AO", PLANNER: "ATC"}[task.who])
        shown.until("return document.querySelector('#b-send').hidden === false")
        shown.js("document.activeElement.blur()")  # the role was chosen long ago
    return Hand(shown)


def server_of(folder: pathlib.Path, task: Task, checkout: pathlib.Path | None = None) -> Any:
    """A server with the day; its page may be another checkout's."""
    server = Server(folder, DESKS if task.who == HANDLER else None, airport=AIRPORT)
    if checkout:
        server.words = [str(checkout / "cdmboard")]
    server.start()
    for day in (DAY, THEN):
        fill(server, day, task.who == HANDLER)
    return server


def measured(driver: Any, task: Task, way: Way, folder: pathlib.Path, checkout: pathlib.Path | None = None) -> tuple[int, float]:
    """Does a task; how many presses and seconds it took."""
    server = server_of(folder, task, checkout)
    try:
        hand = opened(driver, server, task)
        if task.prepare:
            (close_by_form if checkout and task.prepare is close else task.prepare)(hand)
        hand.begin()
        way(hand)
        return hand.presses, time.monotonic() - hand.began
    finally:
        driver.get("about:blank")
        server.end()


def main() -> None:
    from browser import driven
    parser = argparse.ArgumentParser(description=__doc__, formatter_class=argparse.RawDescriptionHelpFormatter)
    parser.add_argument("--before", type=pathlib.Path)
    parser.add_argument("--only", default="")
    words = parser.parse_args()
    if missing():
        sys.exit(missing())
    browser = driven()
    driver = next(browser)
    print("| who | task | before | now |\n|---|---|---|---|")
    for task in TASKS:
        if words.only not in f"{task.who} {task.what}":
            continue
        said = []
        for way, checkout in ((task.before, words.before), (task.now, None)):
            if not way or not said and not checkout:
                said.append("-")
                continue
            with tempfile.TemporaryDirectory() as folder:
                presses, seconds = measured(driver, task, way, pathlib.Path(folder), checkout)
            said.append(f"{presses}; {seconds:.1f} s")
        print(f"| {task.who} | {task.what} | {said[0]} | {said[1]} |", flush=True)
    browser.close()


if __name__ == "__main__":
    main()
