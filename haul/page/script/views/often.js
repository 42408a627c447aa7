/**
 * How often an object occurs: by the reference, or else by the haul, which has only a bound.
 *
 * @import { LifeObject } from '../model/objects.js'
 */
import { element } from '../elements.js';
import { isReferred, wayOf } from '../model/choice.js';
import { hauls } from '../model/data.js';
import { oftenWords } from '../model/words.js';

/**
 * Text that is cut is in the title.
 * @type {(object: LifeObject) => any}
 */
export const oftenOf = object => {
  const [total] = wayOf(object).totals;
  if (!isReferred(object)) return element('span', { class: 'often' }, oftenWords(total, hauls[0].soups));
  const [words, interval] = object.rarity;
  return element('span', { class: 'often', title: `In the reference: ${words} soups, ${interval}` }, words);
};
