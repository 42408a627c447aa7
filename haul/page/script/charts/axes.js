/**
 * Axes of charts.
 *
 * @import { LifeObject } from '../model/objects.js'
 * @typedef {object} Axis
 * @property {(value: number) => number} at returns where a value is, from 0 to 1
 * @property {number[]} marks the values that have a mark
 */
import { wayOf } from '../model/choice.js';
import { isCompared } from '../model/data.js';
import { PER } from '../model/words.js';

const STEPS = 4;

/**
 * Returns the smallest of 1, 2, 5, 10, 20 .. that is no less than a number.
 * @type {(number: number) => number}
 */
const tidy = number => {
  const power = 10 ** Math.floor(Math.log10(number));
  return [1, 2, 5, 10].map(step => step * power).find(step => step >= number);
};

/** @type {(count: number) => number[]} */
const upTo = count => Array.from({ length: count + 1 }, (_, at) => at);

/** @type {(values: number[]) => Axis} */
export const linearAxis = values => {
  const most = Math.max(...values);
  const step = tidy(most / STEPS);
  const steps = Math.ceil(most / step);
  return { at: value => value / (steps * step), marks: upTo(steps).map(at => at * step) };
};

/**
 * Makes an axis that begins and ends at powers of ten.
 * @type {(values: number[]) => Axis}
 */
export const logarithmicAxis = values => {
  const low = Math.floor(Math.log10(Math.min(...values.filter(value => value > 0))));
  const high = Math.max(Math.ceil(Math.log10(Math.max(...values))), low + 1);
  const at = value => value > 0 ? Math.max(0, (Math.log10(value) - low) / (high - low)) : 0;
  return { at, marks: upTo(high - low).map(step => 10 ** (low + step)) };
};

/** @type {(number: number) => string} */
export const short = number => {
  if (number >= 1e6) return `${number / 1e6}M`;
  if (number >= 1e3) return `${number / 1e3}k`;
  return number >= 1 || number === 0 ? String(number) : number.toPrecision(1);
};

/** @type {(share: number) => string} */
export const percent = share => `${(share * 100).toFixed(2)}%`;

/**
 * Returns what a chart shows of an object: its total in a haul, or its rate if hauls are compared.
 * @type {(object: LifeObject, place: number) => number}
 */
export const valueOf = (object, place) => {
  const { rates, totals } = wayOf(object);
  return isCompared ? rates[place] * PER : Number(totals[place]);
};
