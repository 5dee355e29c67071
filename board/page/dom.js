// Elements of the page. Text is always put in as text, never as markup.

export const $ = (selector, root = document) => root.querySelector(selector);
export const $$ = (selector, root = document) => [...root.querySelectorAll(selector)];

/** An element with attributes (false and null are left out) and children, of which strings become text. */
export function el(tag, attributes = {}, ...children) {
  const node = document.createElement(tag);
  for (const [name, value] of Object.entries(attributes)) {
    if (value === true) node.setAttribute(name, '');
    else if (value !== false && value != null) node.setAttribute(name, String(value));
  }
  node.append(...children.filter((child) => child != null && child !== false));
  return node;
}

/** Takes in a style sheet of the page that isn't needed at first. */
export function styled(address) {
  if (!$(`link[href="${address}"]`)) document.head.append(el('link', { rel: 'stylesheet', href: address }));
}

/** Puts a text in, if it isn't there already. */
export function say(node, text) {
  const now = String(text);
  if (node.textContent !== now) node.textContent = now;
}

/** Makes a link a flight's; a name of wide letters is a little smaller, so that it fits. */
export function named(link, name) {
  say(link, name);
  link.setAttribute('href', `#${name}`);
  link.classList.toggle('wide', name.length > 5 && /[MW].*[MW]/.test(name));
}
