"""What a checker of accessibility looks for in a page and that can be told from its tree, in each state of the page. The day by hand is in
browser.py."""
import pytest
from browser import fill, size

RULES = r"""
const bad = [], shown = (node) => node.checkVisibility({checkVisibilityCSS: true});
const said = (node) => node.outerHTML.replace(/\s+/g, ' ').slice(0, 100);
const never = (rule, selector) => { for (const node of document.querySelectorAll(selector)) bad.push(`${rule}: ${said(node)}`); };
const ids = [...document.querySelectorAll('[id]')].map((node) => node.id);
for (const id of ids) if (ids.indexOf(id) !== ids.lastIndexOf(id)) bad.push(`two have the id ${id}`);
for (const name of ['aria-labelledby', 'aria-describedby', 'aria-controls', 'for', 'list'])
  for (const node of document.querySelectorAll(`[${name}]`))
    for (const id of node.getAttribute(name).split(' ')) if (!ids.includes(id)) bad.push(`${name} names what isn't there: ${said(node)}`);
never('not an item', 'ul > :not(li), ol > :not(li), dl > :not(div), dl > div > :not(dt, dd)');
never('one in another', ':is(a, button, summary, label) :is(a[href], button), button :is(input, select)');
never('hidden, but with the focus', '[aria-hidden=true] :is(a[href], button, input, select, textarea, [tabindex])');
never('an order of its own', '[tabindex]:not([tabindex="0"], [tabindex="-1"])');
never('a head without a text', 'th:empty, :is(h1, h2, h3):empty');
for (const node of document.querySelectorAll('table')) {
  const heads = node.tHead ? [...node.tHead.rows].at(-1).cells.length : 0;
  for (const row of node.rows)
    if ([...row.cells].reduce((sum, cell) => sum + cell.colSpan, 0) !== heads) bad.push(`cells without a head: ${said(row)}`);
}
const walker = document.createTreeWalker(document.body, NodeFilter.SHOW_TEXT);
while (walker.nextNode()) {
  const parent = walker.currentNode.parentElement, isIn = parent.closest('header, main, section[aria-label], section[aria-labelledby], .skip, .probe');
  if (walker.currentNode.data.trim() && shown(parent) && !isIn && parent.tagName !== 'NOSCRIPT')
    bad.push(`in no landmark: ${walker.currentNode.data.trim()}`);
}
return [...new Set(bad)];
"""
# What is pressed is 24 px high and wide, or as far from others as if it were; links within a text have its height.
TARGETS = r"""
const boxes = [...document.querySelectorAll('a[href], button, input, select, textarea, summary')]
  .filter((node) => node.checkVisibility({checkVisibilityCSS: true}) && !node.closest('.skip, [inert]'))
  .map((node) => [node, node.getBoundingClientRect()]);
const isSmall = ({width, height}) => width < 23.5 || height < 23.5;
const middle = (box) => [(box.left + box.right) / 2, (box.top + box.bottom) / 2];
const far = ([x, y], box) => Math.hypot(x - Math.max(box.left, Math.min(x, box.right)), y - Math.max(box.top, Math.min(y, box.bottom)));
return boxes.filter(([node, box]) => isSmall(box) && !node.matches('#waits a, #since a')
  && boxes.some(([other, its]) => other !== node && !other.matches('#waits a') && (far(middle(box), its) < 11.5
    || isSmall(its) && Math.hypot(middle(box)[0] - middle(its)[0], middle(box)[1] - middle(its)[1]) < 23.5)))
  .map(([node, box]) => `${node.outerHTML.slice(0, 90)} ${box.width.toFixed(0)}x${box.height.toFixed(0)}`);
"""


@pytest.mark.parametrize("width", [320, 1280])
def test_each_state_keeps_the_rules(page, width):
    """Lists have items alone, what is named is there, each text is in a landmark, each cell has a head, and what is pressed has room."""
    shown = page()
    size(shown.driver, width, 900)
    shown.open()
    shown.choose("#role", "ATC")
    shown.until("return document.querySelector('#b-send').hidden === false")
    fill(shown.server, {"NM": ["CTOT,AFR4,2025-03-10T06:40Z"]})
    shown.says("#warnings", "AFR4")
    shown.js("document.querySelector('#causes').open = true")
    shown.says("#causes", "TOTAL")
    for path in ("", "#EZY7", "#RYR6", "#what-if", "#send", "#sign-in", "#NIX99"):
        shown.js("location.hash = arguments[0]", path)
        shown.until("return [...document.querySelectorAll('.panel')].filter((p) => !p.hidden).length === (arguments[0] ? 1 : 0)", path)
        if path == "#RYR6":
            shown.says("#waits", "CLOSURE")
        if path == "#what-if":
            shown.js("document.querySelector('#scenario').value = arguments[0]",
                     "SCENARIO,OPEN-0630\nOPEN,09,2025-03-10T06:30Z,2025-03-10T06:50Z\nSCENARIO,B\nPRIO,RYR6,0")
            shown.click("#p-what-if form button")
            shown.says("#wi-table", "difference")
        assert shown.js(RULES) == [], path
        assert shown.js(TARGETS) == [], path
    shown.js("location.hash = ''; history.replaceState(null, '', '?op=DLH'); dispatchEvent(new PopStateEvent('popstate'))")
    shown.says("#filtered", "Filter: operator DLH.")
    assert shown.js(RULES) == [] and shown.js(TARGETS) == []


@pytest.mark.parametrize("width,height", [(320, 480), (1280, 500)])
def test_what_has_the_focus_is_in_sight(page, width, height):
    """A panel's head stays at its top while it is scrolled: what gets the focus isn't behind it."""
    shown = page()
    size(shown.driver, width, height)
    shown.open()
    shown.choose("#role", "AO")
    shown.until("return document.querySelector('#b-send').hidden === false")
    shown.js("location.hash = '#EZY7'")
    shown.says("#p-flight form", "Kind")
    shown.until("return document.querySelectorAll('#f-records tr').length > 0 && document.querySelectorAll('#f-warnings button').length > 0")
    covered = shown.js("""const panel = document.querySelector('#p-flight'), head = document.querySelector('#p-flight .ph'), found = [];
        for (const node of [...panel.querySelectorAll('a, button, input, select')].filter((one) => one.checkVisibility() && !head.contains(one))) {
          document.activeElement.blur();
          panel.scrollTop += node.getBoundingClientRect().top - head.getBoundingClientRect().top - 4;
          const isBehind = node.getBoundingClientRect().bottom < head.getBoundingClientRect().bottom;
          node.focus();
          if (isBehind) found.push(node.getBoundingClientRect().top >= head.getBoundingClientRect().bottom ? '' : node.outerHTML.slice(0, 80));
        }
        return found;""")
    assert len(covered) >= 2 and set(covered) == {""}, covered
