/**
 * The elements of the page. They are made here and nowhere else, from names and attributes that stand in fixed lists,
 * and all text becomes text nodes. So no text of a haul can become an element, an attribute or a script, whatever it
 * says.
 *
 * @typedef {Node | string | number | bigint | boolean | null | undefined} Content `false` and an empty text are nothing
 * @typedef {Content | any[]} Contents also in nested lists
 * @typedef {string | number | boolean | undefined} Value
 * @typedef {Record<string, Value | Record<string, string>>} Attributes `style` has its properties in CSS
 */

const SVG = 'http://www.w3.org/2000/svg';
const SVG_NAMES = new Set(['path', 'svg', 'text']);
const HTML_NAMES = new Set([
  'a', 'b', 'button', 'canvas', 'code', 'dd', 'details', 'div', 'dl', 'dt', 'fieldset', 'figcaption', 'figure', 'h2',
  'h3', 'header', 'i', 'input', 'label', 'legend', 'li', 'nav', 'option', 'output', 'p', 'pre', 'section', 'select',
  'small', 'span', 'strong', 'summary', 'table', 'tbody', 'td', 'textarea', 'th', 'thead', 'tr', 'ul',
]);
// None of them is a handler of events.
const ATTRIBUTES = new Set([
  'aria-current', 'aria-expanded', 'aria-hidden', 'aria-label', 'aria-live', 'aria-posinset', 'aria-pressed',
  'aria-rowcount', 'aria-rowindex', 'aria-setsize', 'aria-sort', 'autocomplete', 'checked', 'class', 'd', 'data-act',
  'data-haul', 'data-name', 'data-parts', 'data-phases', 'data-q', 'data-sort', 'data-value', 'disabled', 'height',
  'hidden', 'href', 'id', 'name', 'readonly', 'role', 'rows', 'scope', 'selected', 'tabindex', 'text-anchor', 'title',
  'transform', 'type', 'value', 'viewBox', 'width', 'x', 'y',
]);
// A link leads to a place on this page, or to a page elsewhere.
const ADDRESS = /^(?:#|https:\/\/)/;

/** @type {(id: string) => any} */
export const byId = id => document.getElementById(id);

/**
 * Sets an attribute. With `true` it has no value, and with `false` or `undefined` it is removed.
 * @type {(target: Element, name: string, value: Value) => void}
 */
export const setAttribute = (target, name, value) => {
  if (!ATTRIBUTES.has(name)) throw new Error(`no element of this page has the attribute ${name}`);
  if (name === 'href' && !ADDRESS.test(String(value))) throw new Error(`no link of this page leads to ${value}`);
  if (value === undefined || value === false) target.removeAttribute(name);
  else target.setAttribute(name, value === true ? '' : String(value));
};

/** @type {(content: Contents) => boolean} */
const isContent = content => content !== undefined && content !== null && content !== false && content !== '';

/**
 * Replaces what is in an element.
 * @type {(target: Element, ...contents: Contents[]) => void}
 */
export const fill = (target, ...contents) => {
  target.replaceChildren(...contents.flat(Infinity).filter(isContent));
};

/** @type {(name: string, attributes?: Attributes, ...contents: Contents[]) => any} */
export const element = (name, { style = {}, ...attributes } = {}, ...contents) => {
  if (!HTML_NAMES.has(name) && !SVG_NAMES.has(name)) throw new Error(`this page has no element ${name}`);
  const made = SVG_NAMES.has(name) ? document.createElementNS(SVG, name) : document.createElement(name);
  for (const [attribute, value] of Object.entries(attributes)) setAttribute(made, attribute, /** @type {Value} */ (value));
  for (const [property, value] of Object.entries(style)) made.style.setProperty(property, value);
  fill(made, contents);
  return made;
};

/**
 * Puts spaces between contents.
 * @type {(some: Contents[]) => Contents[]}
 */
export const spaced = some => some.flatMap((one, at) => at ? [' ', one] : [one]);
