/**
 * Links to objects and soups, on this page and elsewhere.
 *
 * @import { Attributes, Contents } from '../elements.js'
 * @import { Haul } from '../model/data.js'
 * @import { LifeObject } from '../model/objects.js'
 */
import { element } from '../elements.js';
import { isLinkable } from '../life/codes.js';
import { addressOf } from '../model/choice.js';
import { nameOf } from '../model/objects.js';

const CATAGOLUE = 'https://catagolue.hatsya.com';
const LIFEWIKI = 'https://conwaylife.com/wiki';

/**
 * Makes a link to the dialog of an object, or to a soup there. If the code can't be linked, its place has no link.
 * @type {(code: string, attributes: Attributes, contents: Contents, soup?: string) => any}
 */
export const linkTo = (code, attributes, contents, soup = '') => {
  if (isLinkable(code)) return element('a', { ...attributes, href: addressOf(code, soup) }, contents);
  const names = [attributes.class, 'unlinked'].filter(Boolean);
  return element('span', { ...attributes, class: names.join(' ') }, contents);
};

/** @type {(object: LifeObject) => any} */
export const codeOf = ({ code }) => element('code', {}, code);

/** @type {(href: string, text: string, attributes?: Attributes) => any} */
export const linkOut = (href, text, attributes = {}) => element('a', { ...attributes, href }, text);

/** @type {(code: string, haul: Haul) => string} */
export const objectOnCatagolue = (code, { option }) => `${CATAGOLUE}/object/${code}/${option}`;

/** @type {(number: number, haul: Haul) => string} */
export const soupOnCatagolue = (number, { seed, option }) => {
  const soup = `${encodeURIComponent(seed)}${number}`;
  return `${CATAGOLUE}/hashsoup/C1/${soup}/${option}`;
};

/** @type {(object: LifeObject) => string} */
export const searchOnLifeWiki = object => `${LIFEWIKI}/Special:Search?search=${encodeURIComponent(nameOf(object))}`;
