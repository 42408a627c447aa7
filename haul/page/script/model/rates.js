/**
 * Rates of hauls that are compared.
 *
 * @import { Way } from './objects.js'
 */
import { data, hauls } from './data.js';
import { PER, figure } from './words.js';

/**
 * Returns the interval of 95 % of a rate, per million soups. Those of parts are in the data, since they allow for soups
 * that leave several. Those of objects are as if objects came singly, and have no test.
 * @type {(way: Way, place: number) => [number, number] | null}
 */
export const intervalOf = (way, place) => {
  if (way.ends) return way.ends[place];
  const ends = data.intervals[way.totals[place]];
  const { soups } = hauls[place];
  return ends && soups ? ends.map(end => end / soups * PER) : null;
};

/**
 * Checks whether a rate differs from that of the first haul by more than chance explains.
 * @type {(way: Way, place: number) => boolean}
 */
export const differs = (way, place) => Boolean(way.stars?.[place]);

/**
 * Returns how many times as many there are as in the first haul.
 * @type {(way: Way, place: number) => number}
 */
export const ratioOf = ({ rates }, place) => {
  if (rates[0]) return rates[place] / rates[0];
  return rates[place] ? Infinity : 0;
};

/** @type {(way: Way, place: number) => string} */
export const ratioWords = (way, place) => {
  const ratio = ratioOf(way, place);
  const { letter } = hauls[place];
  const first = hauls[0].letter;
  if (ratio === Infinity) return `only in ${letter}, not in ${first}`;
  if (ratio === 0) return `not in ${letter}`;
  const times = figure(ratio) === '1' ? '' : `${figure(ratio)} times `;
  return `${times}as many in ${letter} as in ${first}`;
};

/** @type {(ends: [number, number] | null) => string} */
export const intervalWords = ends => ends ? `, 95 % interval ${figure(ends[0])} to ${figure(ends[1])}` : '';
