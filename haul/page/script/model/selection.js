/**
 * Which objects are chosen, and in which order.
 *
 * @import { LifeObject, Way } from './objects.js'
 * @typedef {(a: LifeObject, b: LifeObject) => number} Order
 */
import { choice, isByParts, listed, wayName, wayOf } from './choice.js';
import { hauls } from './data.js';
import { objects } from './objects.js';
import { ratioOf } from './rates.js';

// ---- Tests

/** @type {(way: Way) => boolean} */
export const isInAll = way => way.totals.every(Number);

/** @type {(way: Way, letter: string) => boolean} */
export const isOnlyIn = (way, letter) => way.totals.every(
  (total, place) => (hauls[place].letter === letter) === (Number(total) > 0),
);

/**
 * Returns the tests that an object passes if it is chosen. With parts counted, each of them is strict.
 * @type {() => Record<string, (object: LifeObject) => boolean>}
 */
const testsNow = () => {
  const kinds = listed(choice.kind);
  const periods = listed(choice.period);
  const wanted = choice.q.trim().toLowerCase();
  const way = wayName();
  return {
    there: object => !object.isLeftOut[way],
    kind: ({ letter }) => !kinds.length || kinds.includes(letter),
    period: ({ letter, period }) => !periods.length || letter !== 'p' || periods.includes(String(period)),
    strict: ({ isStrict }) => choice.strict === '0' || isByParts() || isStrict,
    in: object => !choice.in || (choice.in === 'all' ? isInAll(object[way]) : isOnlyIn(object[way], choice.in)),
    q: ({ text }) => text.includes(wanted),
  };
};

/**
 * Returns the objects that pass the tests, or all tests but these.
 * @type {(...but: string[]) => LifeObject[]}
 */
export const passing = (...but) => {
  const tests = Object.entries(testsNow()).filter(([name]) => !but.includes(name)).map(([, test]) => test);
  return [...objects.values()].filter(object => tests.every(test => test(object)));
};

// ---- Orders

/** @type {Order} */
export const byFrequency = (a, b) => wayOf(b).rate - wayOf(a).rate || Number(wayOf(b).total - wayOf(a).total);

/**
 * Orders codes. The number of cells or the period counts as a number.
 * @type {Order}
 */
export const byCode = (a, b) => {
  const [one, other] = [a, b].map(({ code }) => /^(\D*)(\d*)(.*)$/.exec(code));
  if (one[1] !== other[1]) return one[1] < other[1] ? -1 : 1;
  const difference = Number(one[2]) - Number(other[2]);
  if (difference) return difference;
  if (one[3] === other[3]) return 0;
  return one[3] < other[3] ? -1 : 1;
};

/**
 * An object whose cells aren't known comes last.
 * @type {(sign: number) => Order}
 */
const byCells = sign => (a, b) => Number(a.cells === undefined) - Number(b.cells === undefined)
  || sign * (a.cells - b.cells) || 0;

/** @type {(sign: number) => Order} */
const byPeriod = sign => (a, b) => sign * (a.period - b.period);

/** @type {(place: number, sign: number) => Order} */
const byRatio = (place, sign) => (a, b) => {
  const one = ratioOf(wayOf(a), place);
  const other = ratioOf(wayOf(b), place);
  return one === other ? 0 : sign * (one - other);
};

/** @type {[string, string, Order][]} */
export const SORTS = [
  ['frequency', 'most frequent', byFrequency],
  ['rarity', 'rarest', (a, b) => byFrequency(b, a)],
  ['cells', 'fewest cells', byCells(1)],
  ['-cells', 'most cells', byCells(-1)],
  ['period', 'shortest period', byPeriod(1)],
  ['-period', 'longest period', byPeriod(-1)],
];
for (const { letter, place } of hauls.slice(1)) {
  SORTS.push([`ratio-${letter}`, `more in ${letter} than in A`, byRatio(place, -1)]);
  SORTS.push([`-ratio-${letter}`, `fewer in ${letter} than in A`, byRatio(place, 1)]);
}

// ---- What is chosen

/** @type {() => LifeObject[]} */
const chosen = () => {
  const [, , order] = SORTS.find(([name]) => name === choice.sort);
  return passing().sort((a, b) => order(a, b) || byFrequency(a, b) || byCode(a, b));
};

/**
 * The objects in the list, which aren't chosen anew before `selectObjects` is called.
 * @type {{ objects: LifeObject[] }}
 */
export const selection = { objects: [] };

export const selectObjects = () => {
  selection.objects = chosen();
};
