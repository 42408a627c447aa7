/**
 * The head of the dialog: a name, links to the previous and the next one, and a button that closes it.
 *
 * @import { Contents } from '../elements.js'
 */
import { element } from '../elements.js';

/**
 * Makes a link to a neighbour.
 * @type {(text: string, sign: string, href: string, title: string) => any}
 */
export const stepLink = (text, sign, href, title) => {
  const attributes = { class: 'step', href, 'aria-label': text, title };
  return element('a', attributes, sign);
};

/** @type {(name: string, links: Contents, more?: Contents) => any} */
export const dialogHead = (name, links, more = '') => element('header', {},
  element('div', {}, element('h2', { id: 'object-name', tabindex: -1 }, name), more),
  element('nav', {}, links, element('button', { type: 'button', 'data-act': 'close', 'aria-label': 'Close' }, '×')));
