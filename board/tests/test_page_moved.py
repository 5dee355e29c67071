"""A supervisor's first question, without a click: which start-ups of the next 30 minutes moved since one looked, and why. The day by
hand is in browser.py."""
from browser import DAY, WAIT, fill
from selenium_or_none import Keys


def at(time):
    return f"2025-03-10T{time}Z"


def test_what_moved_out_of_the_next_minutes(page):
    """DLH1's window ends at 06:10, before it can take off at 06:15: it is blocked, and DLH2 takes its place. BAW3 goes at 06:50."""
    shown = page().open()
    fill(shown.server, {"NM": [f"CTOT,DLH1,{at('06:00')}"], "AO": [f"TOBT,BAW3,{at('06:50')}"]})
    shown.says("#since", "Next 30 min: 1 moved since ")
    shown.says("#since", "2 moved out: BAW3 DLH1")
    assert shown.row("next", "DLH2")[0] == "06:00 ▲ was 06:05"
    shown.says('#next tr[data-flight="DLH2"] .why', "was 06:05: CTOT DLH1 06:00, NM ")
    shown.says('#blocked tr[data-flight="DLH1"]', "was 06:00: CTOT 06:00, NM ")
    shown.says('#next tr[data-flight="BAW3"] .why', "was 06:00: TOBT 06:50, AO ")
    # A filter is kept to.
    shown.type("#filter [name=op]", "BAW")
    shown.says("#since", "Next 30 min: none moved since ")
    assert shown.text("#since").endswith("1 moved out: BAW3")
    shown.click("#since a")
    shown.says("#h-f", "BAW3")
    shown.click("#show-all")
    shown.keys(Keys.ESCAPE)
    shown.says("#blocked", "DLH1 was 06:00")
    shown.click("#seen")
    shown.until("return !document.querySelector('#since').innerText.includes('out')")
    assert shown.text("#since").startswith("Next 30 min: none moved since ")
    # A flight that just changed is highlighted for ten seconds all the same.
    shown.until("return !document.querySelector('#blocked').innerText.includes('was')", seconds=10 + WAIT)


def test_what_moved_is_kept_over_a_load(page):
    """Who comes back sees the same, and why: the record that moved the start-up, not a later one that changed something else."""
    shown = page().open()
    shown.server.post(f"TOBT,DLH1,{at('06:20')}", Cdm_Role="AO")
    shown.says('#next tr[data-flight="DLH2"] .why', "was 06:05: TOBT DLH1 06:20, AO ")
    shown.server.post(["STAND,DLH2,B1", "STAND,DLH1,B2"], Cdm_Role="AP")
    shown.says('#next tr[data-flight="DLH2"]', "B1")
    since = shown.text("#since")
    shown.open()
    shown.says('#next tr[data-flight="DLH2"] .why', "was 06:05: TOBT DLH1 06:20, AO ")
    shown.says('#next tr[data-flight="DLH1"] .why', "was 06:00: TOBT 06:20, AO ")
    assert shown.text("#since") == since and since.startswith("Next 30 min: 1 moved since ")


def test_why_after_many_records(page):
    """More came while nobody looked than one answer of the log holds."""
    many = [f"X{number:03}" for number in range(250)]
    shown = page(day=DAY | {"AP": DAY["AP"] + [f"FLT,{name},5" for name in many]}).open()
    shown.driver.get("about:blank")
    shown.server.post(f"TOBT,DLH1,{at('06:20')}", Cdm_Role="AO")
    for _ in range(2):
        fill(shown.server, {"GH": [f"ICE,{name},STAND,9" for name in many], "NM": [f"CTOT,{name},{at('09:00')}" for name in many]})
    shown.open()
    shown.says('#next tr[data-flight="DLH2"] .why', "was 06:05: TOBT DLH1 06:20, AO ", seconds=2 * WAIT)


def test_a_number_that_changed_is_marked(page):
    """Two minutes of remote de-icing: BAW3 starts up at 06:00 as before, and takes off two minutes later."""
    shown = page().open()
    shown.server.post("ICE,BAW3,REMOTE,2", Cdm_Role="GH")
    shown.until("return document.querySelector('#next tr[data-flight=BAW3] td.mv') !== null")
    assert shown.row("next", "BAW3")[0] == "06:00 in 10"
    for table in ("next", "all"):
        marked = shown.js(f"return [...document.querySelectorAll('#{table} tr[data-flight=BAW3] td.mv')].map((c) => c.innerText)")
        assert marked == ["17", "06:17"], table
    # By more than colour.
    assert shown.js("return getComputedStyle(document.querySelector('td.mv')).textDecorationLine") == "underline"
    shown.until("return document.querySelector('td.mv') === null", seconds=10 + WAIT)
    assert shown.row("next", "BAW3")[9] == "–"
