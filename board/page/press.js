// Buttons of panels: why nothing can be sent at present, as a text beside them, and presses that aren't lost where the page moves under them.
import { $, $$, el, say } from './dom.js';

/** Why nothing can be sent, by the machine's word. */
const WHY = {
  '': '',
  opening: 'Nothing can be sent yet: the connection is being opened.',
  lost: 'Nothing can be sent: the connection is lost.',
  away: 'Nothing can be sent: the log isn’t reached.',
};
const AFTER = 500; // ms after a pointer's up in which its click may come
let word = '';
let pressed = null; // the button that a pointer is down on, and where it was then
let stray = null; // such a button, whose click comes to something else, and until when

/** Why nothing can be sent, as a sentence; '' where something can. */
export const whyNot = () => WHY[word];

/** A button that sends a record, and the text beside it. Where nothing can be sent it keeps its place in the order of the keyboard, and says why. */
export function sender(id, word = 'Send') {
  const [button, note] = [el('button', { class: 'sends', 'aria-describedby': id }, word), el('p', { class: 'cant', id })];
  mark(button, note);
  return [button, note];
}

function mark(button, note) {
  button.setAttribute('aria-disabled', String(whyNot() !== ''));
  note.hidden = !whyNot() || word === 'opening'; // that is soon over, or the connection is lost
  say(note, whyNot());
}

/** The same for a part of the page that has just been put there: it may have been made when something else was so. */
export function enableIn(root) {
  for (const button of root.querySelectorAll('.sends')) mark(button, $(`#${button.getAttribute('aria-describedby').split(' ')[0]}`));
}

/** Whether records can be sent from now on, and what is only asked of the server. */
export function enableForms(why) {
  word = why;
  enableIn(document);
  for (const button of $$('#p-what-if form button:not([type])')) button.disabled = why === 'lost' || why === 'opening';
}

/** Whether a pointer is down on a button of a form: then the form stays. */
export const isPressed = (form) => pressed !== null && form.contains(pressed.button);

addEventListener('pointerdown', (event) => {
  const button = event.isPrimary && event.button === 0 ? event.target.closest?.('.panel button') : null;
  pressed = button && { button, was: button.getBoundingClientRect() };
  stray = null;
}, true);

addEventListener('pointercancel', () => { pressed = null; }, true);

// A button that has moved away from under the pointer, which is still where the button was, is pressed all the same. What lies there now isn't.
addEventListener('pointerup', ({ clientX, clientY, timeStamp }) => {
  if (!pressed) return;
  const { button, was } = pressed;
  pressed = null;
  const isThere = clientX >= was.left && clientX <= was.right && clientY >= was.top && clientY <= was.bottom;
  if (!isThere || !button.isConnected || button.contains(document.elementFromPoint(clientX, clientY))) return;
  stray = { button, until: timeStamp + AFTER };
  button.click();
}, true);

addEventListener('click', (event) => {
  if (!stray || !event.isTrusted || event.detail === 0) return; // a script's, or the keyboard's
  if (event.timeStamp <= stray.until && !stray.button.contains(event.target)) {
    event.preventDefault();
    event.stopPropagation();
  }
  stray = null;
}, true);
