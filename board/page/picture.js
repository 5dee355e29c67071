// The program's picture (SVG). Its shapes and texts are taken over one by one into a tree of their own; nothing else is. It is loaded when a
// picture is first asked for.
import { $, say } from './dom.js';
import { Problem, ask } from './net.js';

const PAUSE = 10000;
const SHAPES = new Set(['svg', 'g', 'defs', 'pattern', 'rect', 'circle', 'path', 'line', 'polyline', 'polygon', 'text', 'tspan', 'title', 'desc']);
const NO = /^(on|href$|xlink|style$)/i;
const ELSEWHERE = /url\((?!#)/i;
const SPACE = 'http://www.w3.org/2000/svg';

function taken(node) {
  if (node.nodeType === Node.TEXT_NODE) return document.createTextNode(node.data);
  if (node.nodeType !== Node.ELEMENT_NODE || !SHAPES.has(node.localName)) return null;
  const made = document.createElementNS(SPACE, node.localName);
  for (const { name, value } of node.attributes) if (!NO.test(name) && !name.startsWith('xmlns') && !ELSEWHERE.test(value)) made.setAttribute(name, value);
  for (const child of node.childNodes) {
    const one = taken(child);
    if (one) made.append(one);
  }
  return made;
}

/** The box of the picture, between the runways and the tables. */
export class Picture {
  constructor() {
    Object.assign(this, { root: $('#picture'), asked: -PAUSE, from: null });
    $('button', this.root).addEventListener('click', () => this.close());
    this.root.addEventListener('keydown', (event) => {
      if (event.key !== 'Escape') return;
      event.preventDefault();
      this.close();
    });
  }

  /** The day's picture, with those of scenarios below it: asked for at most every ten seconds. */
  async show(scenarios, names = []) {
    if (this.root.hidden) this.from = document.activeElement;
    this.root.hidden = false;
    $('#h-p').focus();
    const pause = this.asked + PAUSE - performance.now();
    if (pause > 0) {
      this.fault(`A picture can be drawn again in ${Math.ceil(pause / 1000)} s.`);
      return;
    }
    this.asked = performance.now();
    this.fault('');
    try {
      const answer = await ask('/v1/picture.svg', scenarios ? { method: 'POST', body: scenarios } : {});
      say($('small', this.root), `${['the day', ...names].join(', ')} at record ${answer.position}, UTC`);
      draw($('#drawn'), answer.text, `${['The day', ...names].join(', ')}, as timelines`);
    } catch (problem) {
      if (!(problem instanceof Problem)) throw problem;
      this.fault(`No picture: ${problem.message}.`);
    }
  }

  fault(words) {
    $('.fault', this.root).hidden = !words;
    say($('.fault', this.root), words);
  }

  close() {
    this.root.hidden = true;
    if (this.from?.isConnected) this.from.focus({ preventScroll: true });
  }
}

/** Draws a picture in a node; the styles that it brings hold in it alone. */
function draw(root, text, label) {
  // A style of the text's own would be inline, which the page's policy refuses, even where it is only parsed.
  const styles = [];
  const shapes = text.replace(/<style[^>]*>([^<]*)<\/style>/g, (_, style) => {
    styles.push(style);
    return '';
  });
  const picture = new DOMParser().parseFromString(shapes, 'image/svg+xml').documentElement;
  const shadow = root.shadowRoot ?? root.attachShadow({ mode: 'open' });
  const sheet = new CSSStyleSheet();
  sheet.replaceSync(`svg{display:block;width:100%;height:auto}\n${styles.join('\n')}`);
  shadow.adoptedStyleSheets = [sheet];
  const made = taken(picture);
  if (!made) return;
  made.setAttribute('role', 'img');
  made.setAttribute('aria-label', label);
  shadow.replaceChildren(made);
}
