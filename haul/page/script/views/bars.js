/**
 * A bar for each haul that is compared. The longest one on a card is that of the haul with the most.
 *
 * @import { Haul } from '../model/data.js'
 * @import { LifeObject, Way } from '../model/objects.js'
 */
import { element } from '../elements.js';
import { isReferred } from '../model/choice.js';
import { hauls } from '../model/data.js';
import { differs, intervalOf, intervalWords } from '../model/rates.js';
import { PER, figure, perMillion } from '../model/words.js';

/** @type {(haul: Haul) => any} */
export const letterOf = ({ letter }) => element('span', { class: 'letter', 'data-haul': letter }, letter);

/** Makes the mark of a rate that differs from that of the first haul. */
export const markOf = () => element('b', { class: 'differs' },
  '*',
  element('span', { class: 'hidden' }, ' differs from A'));

/** @type {(object: LifeObject) => any} */
export const unitOf = object => element('span', { class: 'per' },
  'per million soups',
  isReferred(object) && element('span', { class: 'rarity' }, object.rarity[0]));

/** @type {(way: Way, haul: Haul) => any} */
const barOf = (way, haul) => {
  const { letter, place } = haul;
  const rate = way.rates[place];
  const width = `${(rate / (way.rate || 1) * 100).toFixed(1)}%`;
  const title = `${letter}: ${perMillion(rate)}${intervalWords(intervalOf(way, place))}`;
  return element('span', { class: 'rate', title },
    letterOf(haul),
    element('span', { class: 'track' }, element('span', { class: 'bar', 'data-haul': letter, style: { width } })),
    element('span', { class: rate ? 'number' : 'number zero' }, figure(rate * PER), differs(way, place) && markOf()));
};

/** @type {(way: Way) => any} */
export const barsOf = way => element('span', { class: 'bars' }, hauls.map(haul => barOf(way, haul)));
