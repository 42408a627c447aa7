/**
 * The chosen objects as a table. A click on a head sorts by its column, and another one turns the order.
 *
 * @import { Contents } from '../elements.js'
 * @import { LifeObject } from '../model/objects.js'
 * @import { View } from './list.js'
 * @typedef {[string, string, string?, string?]} Column its class, its head, and the orders by which it can be sorted
 */
import { element, fill, spaced } from '../elements.js';
import { choice, isByReference, isReferred, wayOf } from '../model/choice.js';
import { hauls, isCompared } from '../model/data.js';
import { hasSoup } from '../model/soups.js';
import { NOT_SEPARATED, kindWords, whole } from '../model/words.js';
import { barsOf } from './bars.js';
import { codeOf, linkTo } from './links.js';
import { oftenOf } from './often.js';
import { pictureOfObject } from './picture.js';

const SIDE = 48;
const ROWS = 24;

// ---- Heads

/** @type {Column[]} */
const COLUMNS = [
  ['picture', 'Picture'],
  ['name', 'Name and code'],
  ['kind', 'What it is', 'period', '-period'],
  ['cells', 'Cells', 'cells', '-cells'],
];
/** @type {Column} */
const RATES = ['rates', 'Per million soups', 'frequency', 'rarity'];
/** @type {Column} */
const TOTAL = ['total', 'Total', 'frequency', 'rarity'];
/** @type {Column} */
const OFTEN = ['in', 'How often', 'frequency', 'rarity'];
/** @type {Column} */
const REFERENCE = ['in', 'In the reference'];
/** @type {Column} */
const SAMPLES = ['samples', 'Sample soups'];
const ARROWS = { ascending: ' ↑', descending: ' ↓' };

/** @type {() => Column[]} */
const columnsNow = () => {
  if (isCompared) return isByReference() ? [...COLUMNS, RATES, REFERENCE] : [...COLUMNS, RATES];
  return [...COLUMNS, TOTAL, isByReference() ? REFERENCE : OFTEN, SAMPLES];
};

/**
 * Returns in which order a column is sorted, or nothing. If two columns have the same order, the arrow is at the first
 * one.
 * @type {(column: Column) => '' | 'ascending' | 'descending'}
 */
const orderOf = ([name, , first, second]) => {
  if (name === 'in' || (choice.sort !== first && choice.sort !== second)) return '';
  if (name === 'total' || name === 'rates') return choice.sort === 'frequency' ? 'descending' : 'ascending';
  return choice.sort[0] === '-' ? 'descending' : 'ascending';
};

/** @type {(column: Column) => any} */
const headOf = column => {
  const [name, text, first, second] = column;
  if (!first) return element('th', { scope: 'col', class: name }, text);
  const order = orderOf(column);
  const sort = choice.sort === first ? second : first;
  const button = element('button', { type: 'button', 'data-sort': sort }, `${text}${ARROWS[order] ?? ''}`);
  return element('th', { scope: 'col', class: name, 'aria-sort': order || false }, button);
};

// ---- Rows

/** @type {(object: LifeObject, number: number) => Contents} */
const sampleOf = ({ code }, number) => hasSoup(number, hauls[0]) ? linkTo(code, {}, number, `A${number}`) : number;

/** @type {(object: LifeObject) => any} */
const referenceCell = object => element('td', { class: 'in' },
  oftenOf(object),
  isReferred(object) && element('small', {}, object.rarity[1]));

/**
 * Makes the cells of a row after the first four. On a telephone, how often an object comes is below its total.
 * @type {(object: LifeObject) => Contents[]}
 */
const countCells = object => {
  const way = wayOf(object);
  if (isCompared) return [element('td', { class: 'rates' }, barsOf(way)), isByReference() && referenceCell(object)];
  return [
    element('td', { class: 'total' }, element('b', {}, whole(way.totals[0])), oftenOf(object)),
    referenceCell(object),
    element('td', { class: 'samples' }, spaced(way.samples[0].map(number => sampleOf(object, number)))),
  ];
};

/** @type {(object: LifeObject, at: number) => any} */
const rowOf = (object, at) => {
  const label = object.label && element('b', {}, object.label);
  const kind = object.isUnsure ? `${kindWords(object)}, ${NOT_SEPARATED}` : kindWords(object);
  return element('tr', { 'aria-rowindex': at + 2 },
    element('td', { class: 'picture' }, pictureOfObject(object, SIDE)),
    element('th', { scope: 'row', class: 'name' }, linkTo(object.code, {}, [label, codeOf(object)])),
    element('td', { class: 'kind' }, kind),
    element('td', { class: 'cells' }, object.cells),
    countCells(object));
};

const makeChunk = () => element('tbody');

/** @type {View} */
export const TABLE = {
  rows: ROWS,
  make: count => {
    const heads = element('thead', {}, element('tr', {}, columnsNow().map(headOf)));
    return element('table', { class: 'table', 'aria-rowcount': count + 1 }, heads);
  },
  chunk: makeChunk,
  measure: table => {
    const probe = makeChunk();
    fill(probe, element('tr', {}, element('td', {}, '.')));
    table.append(probe);
    const { height } = probe.rows[0].getBoundingClientRect();
    probe.remove();
    return { columns: 1, height };
  },
  fill: (chunk, objects, first) => fill(chunk, objects.map((object, at) => rowOf(object, first + at))),
  empty: (chunk, height) => {
    const cell = element('td', { style: { height: `${height}px` } });
    fill(chunk, element('tr', { class: 'filler', 'aria-hidden': 'true' }, cell));
  },
};
