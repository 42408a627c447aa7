/**
 * Numbers and kinds of objects in words.
 *
 * @import { Letter } from '../life/codes.js'
 * @import { Total } from './data.js'
 */

export const PER = 1e6;
export const KIND_WORDS = { s: 'still life', p: 'oscillator', q: 'spaceship', '': 'object' };
// These words stand in the data for the parts of an object that has none, or whose parts aren't known.
export const STRICT = 'strict';
export const NOT_SEPARATED = 'not separated';

/** @type {(number: Total | bigint) => string} */
export const whole = number => (typeof number === 'string' ? BigInt(number) : number).toLocaleString('en');

/** @type {(number: Total, one: string) => string} */
export const noun = (number, one) => `${one}${String(number) === '1' ? '' : 's'}`;

/**
 * Returns a number with three digits, or with all digits of a whole number.
 * @type {(number: number) => string}
 */
export const figure = number => number >= 100
  ? Math.round(number).toLocaleString('en')
  : String(Number(number.toPrecision(3)));

/** @type {(rate: number) => string} */
export const perMillion = rate => `${figure(rate * PER)} per million soups`;

/** @type {(object: { letter: Letter, period: number }) => string} */
export const kindWords = ({ letter, period }) => letter === 's' || letter === ''
  ? KIND_WORDS[letter]
  : `${KIND_WORDS[letter]} of period ${period}`;

/**
 * Returns how often a haul has an object. A haul doesn't say how many soups have one, so of that there is only a bound.
 * @type {(total: Total, soups: number) => string}
 */
export const oftenWords = (total, soups) => {
  const number = Number(total);
  if (!soups || !number) return 'none';
  if (number * 2 > soups) return `${figure(number / soups)} per soup`;
  return `≤ 1 in ${whole(Math.max(1, Math.floor(soups / number)))} soups`;
};

/**
 * Returns what the reference says of a part. It says how many soups have the part: one in how many, the interval of
 * 95 %, and the numbers. Where it can't say it, there is a single text that says why.
 * @type {(rarity: string[]) => string}
 */
export const rarityWords = ([often, interval, numbers]) => interval
  ? `${often} soups (${interval})${numbers && `; ${numbers}`}`
  : often;

/**
 * Returns how many of some things have each key.
 * @type {<Thing, Key>(some: Thing[], keyOf: (thing: Thing) => Key) => Map<Key, number>}
 */
export const tallied = (some, keyOf) => {
  const tally = new Map();
  for (const one of some) tally.set(keyOf(one), (tally.get(keyOf(one)) ?? 0) + 1);
  return tally;
};
