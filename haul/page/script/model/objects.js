/**
 * The objects of the page and their parts.
 *
 * An object counts in two ways: as it is, and as the parts of objects. Each way has a value for each haul.
 *
 * @import { Cells } from '../life/cells.js'
 * @import { Letter } from '../life/codes.js'
 * @import { Recurrence } from '../life/recurrence.js'
 * @import { Haul, Made, Total } from './data.js'
 *
 * @typedef {object} Way
 * @property {Total[]} totals
 * @property {number[]} rates objects per soup
 * @property {number} rate the highest of these
 * @property {bigint} total the sum of the totals
 * @property {number[][]} samples the numbers of sample soups
 * @property {([number, number] | null)[]} [ends] the interval of each rate, per million soups
 * @property {number[]} [stars] 1 if the rate differs from that of the first haul
 *
 * @typedef {object} LifeObject
 * @property {string} code
 * @property {string} label its name, or its parts in words, or nothing
 * @property {boolean} isNamed
 * @property {Made[]} made
 * @property {number} [cells]
 * @property {Letter} letter
 * @property {number} period
 * @property {Way} objects
 * @property {Way} parts
 * @property {{ objects: boolean, parts: boolean }} isLeftOut
 * @property {boolean} isStrict
 * @property {boolean} isUnsure whether it couldn't be separated
 * @property {string[]} also its other names
 * @property {string[]} rarity what the reference says of it as a part
 * @property {string} known what the lists of known codes say of it, or nothing
 * @property {string} text what a search finds
 */
import { cellsOfCode, kindOf } from '../life/codes.js';
import { recurrenceOf } from '../life/recurrence.js';
import { data, hauls } from './data.js';
import { NOT_SEPARATED, STRICT, kindWords } from './words.js';

/**
 * Returns the totals and the samples for each haul, and what they say together.
 * @type {(values: (0 | [Total, ...number[]])[] | undefined, ends?: Way['ends'], stars?: number[]) => Way}
 */
const countWay = (values, ends, stars) => {
  /** @type {[Total, ...number[]][]} */
  const counts = hauls.map((_, place) => values?.[place] || [0]);
  const totals = counts.map(([total]) => total);
  const samples = counts.map(([, ...numbers]) => numbers);
  const rates = hauls.map(({ soups }, place) => soups ? Number(totals[place]) / soups : 0);
  const total = totals.reduce((sum, one) => sum + BigInt(one), 0n);
  return { totals, rates, rate: Math.max(...rates), total, samples, ends, stars };
};

/** @type {(way: Way) => boolean} */
const isTooFew = ({ totals }) => !totals.some(total => BigInt(total) >= BigInt(data.least) && BigInt(total) > 0n);

/** @type {(one: any) => LifeObject} */
const readObject = ({ code, label, also = [], named, made, cells, rarity = [], known = '', ...counts }) => {
  const kind = kindOf(code);
  const objects = countWay(counts.objects);
  const parts = countWay(counts.parts, counts.ends, counts.stars);
  return {
    code,
    label,
    isNamed: Boolean(named),
    made,
    cells,
    ...kind,
    objects,
    parts,
    isLeftOut: { objects: isTooFew(objects), parts: isTooFew(parts) },
    // An object is shown as strict if it is in one of the hauls, or if it couldn't be separated.
    isStrict: made.some(one => one === STRICT || one === NOT_SEPARATED),
    isUnsure: made.includes(NOT_SEPARATED),
    also,
    rarity,
    known,
    text: [code, label, ...also, kindWords(kind), known].join(' ').toLowerCase(),
  };
};

/**
 * Each object and each part by its code.
 * @type {Map<string, LifeObject>}
 */
export const objects = new Map(data.objects.map(one => [one.code, readObject(one)]));

/** @type {(object: LifeObject) => string} */
export const nameOf = ({ label, code }) => label || code;

/**
 * Returns the plural of a name. A label that is made from parts, or a code, has none.
 * @type {(object: LifeObject) => string}
 */
export const pluralOf = ({ isNamed, label }) => {
  if (!isNamed) return 'objects with this code';
  const stem = label.replace(/loaf$/, 'loave').replace(/([^aeiou])y$/, '$1ie').replace(/(s|x|z|ch|sh)$/, '$1e');
  return `${stem}s`;
};

/**
 * Returns the first haul that has an object, also as a part.
 * @type {(object: LifeObject) => Haul}
 */
export const firstWith = ({ made }) => hauls.find(({ place }) => made[place] !== null) ?? hauls[0];

// ---- Phases

/** @type {Map<string, Recurrence | null>} */
const recurrences = new Map();

/**
 * Returns the phases of an object under the rule of a haul, or null if it doesn't recur there.
 * @type {(object: LifeObject, haul: Haul) => Recurrence | null}
 */
export const recurrenceIn = ({ code }, haul) => {
  const key = `${haul.place} ${code}`;
  if (!recurrences.has(key)) recurrences.set(key, recurrenceOf(code, haul.life));
  return recurrences.get(key) ?? null;
};

/**
 * Returns the phases that are known: all, or the one that the code draws, or none.
 * @type {(object: LifeObject, haul: Haul) => Cells[]}
 */
export const phasesIn = (object, haul) => {
  const known = recurrenceIn(object, haul);
  const drawn = cellsOfCode(object.code);
  if (known) return known.phases;
  return drawn ? [drawn] : [];
};
