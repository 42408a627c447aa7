/**
 * The soups of the page: samples of objects, and long lives.
 *
 * @import { Cells } from '../life/cells.js'
 * @import { Haul } from './data.js'
 * @import { LifeObject } from './objects.js'
 *
 * @typedef {object} Soup
 * @property {number} number
 * @property {Haul} haul
 * @property {Cells} cells
 * @property {boolean} isAsked whether `census` was asked when it settles
 * @property {boolean} ends whether `census` said it
 * @property {number} [settled] the generation at which it had settled
 * @property {number} [least] the fewest live cells that its objects can have then
 * @property {number} [most]
 *
 * @typedef {{ soup: number, words: string, cells: string, end: number[] }} Life
 */
import { cellsOfSoup } from '../life/codes.js';
import { data, hauls } from './data.js';

/** @type {(number: number, haul: Haul, cells: string, end: number[]) => Soup} */
const makeSoup = (number, haul, cells, end) => {
  const [settled, least, most] = end;
  return {
    number, haul, cells: cellsOfSoup(cells), isAsked: end.length > 0, ends: end.length === 3, settled, least, most,
  };
};

// ---- Samples

/**
 * Checks whether the page has a soup. It has none of a haul with another symmetry than C1.
 * @type {(number: number, haul: Haul) => boolean}
 */
export const hasSoup = (number, { place }) => number in data.soups[place];

/** @type {(number: number, haul: Haul) => Soup} */
export const soupOf = (number, haul) => {
  const [cells, ...end] = data.soups[haul.place][number];
  return makeSoup(number, haul, cells, end);
};

/**
 * Returns the numbers of the sample soups of an object and of the part that it is, whether the page has them or not.
 * @type {(object: LifeObject, haul: Haul) => number[]}
 */
export const samplesIn = ({ objects, parts }, { place }) => {
  const numbers = [...objects.samples[place], ...parts.samples[place]];
  return [...new Set(numbers)];
};

/** @type {(soup: Soup) => string} */
export const commandOf = ({ number, haul }) => haul.commands.join(String(number));

// ---- Long lives, of the page of one haul

/** @type {Map<string, Life>} */
export const lives = new Map(data.lives.map(life => [String(life.soup), life]));

/** @type {(life: Life) => Soup} */
export const soupOfLife = ({ soup, cells, end }) => makeSoup(soup, hauls[0], cells, end);
