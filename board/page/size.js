// Which layout fits, by how much text goes into a line of the window. It runs before the page is drawn, so it is no module.
//
// The text grows with the window from 1,920 px on. The browser's zoom makes the window smaller in its own units, which would take back
// what it enlarges; so the window's outer width counts, which zoom doesn't change. Larger text, text that is spaced by its reader and
// wide fonts all leave less room in a line, and get the layout of a narrower window.
{
  const root = document.documentElement;
  const WALL = 120; // so many rem wide is a window from 1,920 px on
  const PIXELS = 16; // of one rem in the layouts' widths
  const ZOOMED = 1.05; // frames and scroll bars are less
  const TEXT = '00:00 ABC0000';
  const TEXT_EM = 7.15; // its width in the fonts that the widths of the columns are made for
  const LINE_EM = 1.45; // a line that is higher is spaced by its reader
  const LAYOUTS = { wall: [1900, Infinity], roomy: [861, Infinity], narrow: [0, 1219], slim: [0, 860], phone: [0, 700], hand: [0, 480], tiny: [0, 310] };
  let probe = null;
  let said = '';

  /** How much wider than planned the text is, and whether its lines are higher. */
  function spaced(rem) {
    if (!probe) return [1, false];
    const { width, height } = probe.getBoundingClientRect();
    return [Math.max(1, width / (rem * TEXT_EM)), height > rem * LINE_EM];
  }

  function measure() {
    const outer = outerWidth > innerWidth * ZOOMED ? outerWidth : innerWidth;
    root.style.setProperty('--wall', `${outer}px`);
    const rem = Math.max(parseFloat(getComputedStyle(root).fontSize), outer / WALL);
    const [wide, isHigh] = spaced(rem);
    const width = innerWidth * PIXELS / (rem * wide);
    const names = Object.keys(LAYOUTS).filter((name) => width >= LAYOUTS[name][0] && width < LAYOUTS[name][1] + 1).map((name) => `l-${name}`);
    if (wide > ZOOMED || isHigh) names.push('l-spaced');
    const now = `${names} ${wide.toFixed(2)}`;
    if (now === said) return;
    said = now;
    root.style.setProperty('--wide', wide.toFixed(2));
    for (const name of [...root.classList]) if (name.startsWith('l-') && !names.includes(name)) root.classList.remove(name);
    root.classList.add(...names);
    dispatchEvent(new Event('layout'));
  }

  measure();
  addEventListener('resize', measure);
  document.addEventListener('DOMContentLoaded', () => {
    probe = document.createElement('span');
    probe.className = 'probe';
    probe.setAttribute('aria-hidden', 'true');
    probe.textContent = TEXT;
    document.body.append(probe);
    new ResizeObserver(measure).observe(probe);
    measure();
  });
}
