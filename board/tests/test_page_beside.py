"""Scenarios beside each other: on the runways' one axis of time, with the causes of each, and the difference between any two. The day by hand is in
browser.py."""
import pytest
from browser import fill, size
from test_page_act import lines, what_if
from test_page_eye import BROKEN, CLIPPED, SPACED
from test_page_look import TOKENS
from test_page_rules import RULES, TARGETS


def at(time):
    return f"2025-03-10T{time}Z"


# A: 09 opens at 06:30, so RYR6 takes off then, at 8 minutes' delay in place of 28. B: DLH1 starts up at 06:20 and takes off at 06:35, and DLH2 has its
# place, at 06:15: 5 minutes less. C: both of them.
OPEN, LATE = f"OPEN,09,{at('06:30')},{at('06:50')}", f"TOBT,DLH1,{at('06:20')}"
THREE = f"SCENARIO,A\n{OPEN}\nSCENARIO,B\n{LATE}\nSCENARIO,C\n{OPEN}\n{LATE}\n"


def three(shown, chosen="C"):
    """The three, of which one is chosen."""
    what_if(shown, THREE)
    shown.js("[...document.querySelectorAll('#wi-table button')].find((one) => one.textContent === arguments[0]).click()", chosen)
    shown.until("return document.querySelector('#wi-table .chosen th').textContent === arguments[0]", chosen)
    shown.until("return document.querySelector('#wi-causes .chosen th')?.textContent === arguments[0]", chosen)
    shown.until("return document.querySelector('.band .chosen b')?.textContent === arguments[0]", chosen)


OFFERED = "return [...document.querySelectorAll('#wi-answer option')].map((one) => one.textContent)"
# Of a runway: each body's name, and its cells that have flights, with the time in their column.
AXIS = """return [...document.querySelectorAll(`#rw-${arguments[0]} + .scroll tbody`)].map((body) => [body.querySelector('.name b')?.textContent ?? 'day',
  [...body.querySelectorAll('.names td')].map((cell, at) => [cell.closest('table').tHead.rows[0].cells[at + 1].textContent, cell.innerText.replace(/\\s+/g, ' ').trim()])
    .filter(([, text]) => text).map((one) => one.join(' '))]);"""


def test_scenarios_on_one_axis_of_time(page):
    """Each has its rows below the day's, in the same columns. What isn't in its cell of the day is marked, and its name is struck out where it was."""
    shown = page().open()
    before = lines(shown)
    three(shown)
    shown.until("return document.querySelectorAll('.band .wi .name').length === 6")
    assert shown.js(AXIS, "09") == [["day", ["06:50 RYR6", "07:00 AFR4"]], ["A", ["06:30 RYR6*", "06:50 was RYR6", "07:00 AFR4"]],
                                    ["B", ["06:50 RYR6", "07:00 AFR4"]], ["C", ["06:30 RYR6*", "06:50 was RYR6", "07:00 AFR4"]]]
    assert shown.js(AXIS, "27L") == [["day", ["06:10 BAW3 DLH1", "06:20 DLH2"]], ["A", ["06:10 BAW3 DLH1", "06:20 DLH2"]],
                                     ["B", ["06:10 BAW3 DLH2* was DLH1", "06:20 was DLH2", "06:30 DLH1*"]],
                                     ["C", ["06:10 BAW3 DLH2* was DLH1", "06:20 was DLH2", "06:30 DLH1*"]]]
    assert shown.js("return [...document.querySelectorAll('#rw-09 + .scroll .chosen b')].map((one) => one.textContent)[0]") == "C"
    shown.says("#wi-note", "In the runways’ bands each scenario has its rows")
    shown.js("location.hash = ''")
    shown.until("return document.querySelector('.wi') === null")
    assert lines(shown) == before


def test_the_difference_between_any_two(page):
    """C has B's flights where B has them, and RYR6 20 minutes sooner; the day's difference is of both."""
    shown = page().open()
    three(shown)
    assert shown.texts("#wi-table tr")[-1] == "difference 0 −25 −15 −1 0" and shown.texts("#wi-flights th") == ["DLH1", "DLH2", "RYR6"]
    shown.choose("#p-what-if #wi-answer select", "B")
    shown.until("return document.querySelectorAll('#wi-flights tr').length === 1")
    assert shown.texts("#wi-flights tr") == ["RYR6 06:38 06:18 −20 min"] and shown.texts("#p-what-if thead th")[-4:] == ["Flight", "B", "C", "Change"]
    assert shown.texts("#wi-table tr")[-1] == "difference 0 −20 −15 −1 0"
    shown.until("return document.querySelector('#wi-note').textContent.includes('isn’t in that cell in B')")
    assert shown.js(AXIS, "27L")[3] == ["C", ["06:10 BAW3 DLH2", "06:30 DLH1"]]
    assert shown.js(AXIS, "27L")[1] == ["A", ["06:10 BAW3 DLH1* was DLH2", "06:20 DLH2*", "06:30 was DLH1"]]
    assert shown.texts("#wi-causes tbody tr")[-1] == "difference −20 0 0 −20 0 0 0"
    assert shown.js("return document.activeElement === document.querySelector('#wi-answer select')")
    # Of the one that is compared with nothing else is offered than the others.
    shown.js("[...document.querySelectorAll('#wi-table button')].find((one) => one.textContent === 'B').click()")
    shown.until("return document.querySelector('#wi-table .chosen th').textContent === 'B'")
    assert shown.js(OFFERED) == ["the day", "A", "C"] and shown.texts("#wi-flights th") == ["DLH1", "DLH2"]


def test_the_causes_of_each(page):
    """AFR4 waits 13 minutes for its CTOT. RYR6 waits for the end of the closure, 28 minutes, or 8; DLH2 5 for its rate, or none."""
    shown = page().open()
    three(shown)
    assert shown.texts("#wi-causes tbody tr") == ["day 46 0 13 28 0 5 0", "A 26 0 13 8 0 5 0", "B 41 0 13 28 0 0 0", "C 21 0 13 8 0 0 0", "difference −25 0 0 −20 0 −5 0"]
    widths = shown.js("return [...document.querySelectorAll('.bars li')].map((one) => [...one.querySelectorAll('b')].map((b) => [b.textContent, Math.round(46 * parseFloat(b.style.width) / 100)]))")
    assert widths == [[["C", 13], ["X", 28], ["R", 5]], [["C", 13], ["X", 8], ["R", 5]], [["C", 13], ["X", 28]], [["C", 13], ["X", 8]]]


def test_one_that_is_refused_has_no_rows(page):
    shown = page().open()
    what_if(shown, f"SCENARIO,A\n{OPEN}\nSCENARIO,BAD\nPRIO,XY9,1\nSCENARIO,B\n{LATE}\n")
    shown.until("return document.querySelectorAll('#wi-causes tbody tr').length === 4")
    assert [name for name, _ in shown.js(AXIS, "09")] == ["day", "A", "B"] and shown.js(OFFERED) == ["the day", "B"]


MEANWHILE = """const real = window.fetch;
window.fetch = async (path, ...words) => {
  if (String(path).startsWith('/v1/load.json?scenario=')) await new Promise((go) => { window.go = go; });
  return real(path, ...words);
};"""


def test_a_comparison_stays_as_the_day_moves_on(page):
    """RYR6 is cancelled after the comparison came, and before its rows: those have no answer then. Nothing of the comparison goes."""
    shown = page().open()
    shown.allowed.append("422 (Unprocessable Entity)")
    shown.js(MEANWHILE)
    what_if(shown, "SCENARIO,A\nRWY,RYR6,27L")
    shown.until("return window.go !== undefined")
    shown.server.post("CNL,RYR6", Cdm_Role="AO")
    shown.js("window.go()")
    shown.says("#wi-note", "have no answer: ")
    assert shown.texts("#wi-flights th") == ["RYR6"] and not shown.find("#wi-fault").is_displayed()
    assert shown.js("return document.activeElement.id") == "wi-head"


def test_the_best_one_is_shown(page):
    """It is written last; it opens 09 sooner, and the other one closes 27L. It is said that they are compared, until all is there."""
    shown = page().open()
    shown.js(MEANWHILE)
    what_if(shown, f"SCENARIO,WORSE\nCLOSE,27L,{at('06:10')},{at('06:40')}\nSCENARIO,BETTER\n{OPEN}\n")
    assert shown.text("#wi-table .chosen th") == "BETTER" and shown.texts("#wi-flights th") == ["RYR6"]
    assert shown.text("#wi-works") == "Comparing …"
    shown.until("window.go?.(); return document.querySelector('#wi-works').textContent === ''")
    assert shown.texts("#wi-causes tbody th") == ["day", "WORSE", "BETTER", "difference"]


def test_of_many_scenarios_four_are_beside_each_other(page):
    """Among them the one that is chosen."""
    shown = page().open()
    what_if(shown, "".join(f"SCENARIO,S{number}\nTOBT,DLH1,{at(f'06:{number + 10}')}\n" for number in range(6)))
    shown.says("#wi-note", "Of 6 scenarios 4 are shown: choose another one in the table.")
    assert [name for name, _ in shown.js(AXIS, "27L")] == ["day", "S0", "S1", "S2", "S3"]
    shown.js("[...document.querySelectorAll('#wi-table button')].find((one) => one.textContent === 'S5').click()")
    shown.until("return [...document.querySelectorAll('#rw-27L + .scroll .name b')].map((one) => one.textContent).join() === 'S0,S1,S2,S5'")


@pytest.mark.parametrize("width", [320, 360, 1280, 1920, 3840])
def test_scenarios_keep_the_rules(page, width):
    """Where the panel covers the page the runways are in it, as long as it is open; nothing is cut off, and no name or time is broken."""
    shown = page()
    fill(shown.server, {"ATC": [f"CLOSE,27L,{at('07:52')},{at('07:55')}"]})  # part of a cell, which is said to a reader alone
    size(shown.driver, width, 900)
    shown.open()
    three(shown)
    shown.until("return document.querySelectorAll('.band .wi .name').length === 6")
    assert shown.js("const panel = document.querySelector('#p-what-if'); return panel.scrollWidth - panel.clientWidth") == 0
    isNarrow = width < 1280
    assert shown.js("const one = document.querySelector('#runways'); return [one.closest('.panel') !== null, one.inert, one.checkVisibility()]") == [isNarrow, False, True]
    for rule in (RULES, TARGETS, CLIPPED, BROKEN):
        assert shown.js(rule) == []
    shown.js(SPACED)
    shown.until("return document.documentElement.classList.contains('l-spaced')")
    assert shown.js(CLIPPED) == [] and shown.js(BROKEN) == [] and shown.js(TOKENS) == []
    shown.js("location.hash = ''")
    shown.until("return document.querySelector('.wi') === null")
    assert shown.js("return [...document.querySelector('#left').children].map((one) => one.id)")[0] == "runways"
