/**
 * The chosen objects as a gallery of cards.
 *
 * @import { Contents } from '../elements.js'
 * @import { LifeObject } from '../model/objects.js'
 * @import { View } from './list.js'
 */
import { element, fill } from '../elements.js';
import { wayOf } from '../model/choice.js';
import { isCompared } from '../model/data.js';
import { KIND_WORDS, NOT_SEPARATED, kindWords, noun, whole } from '../model/words.js';
import { barsOf, unitOf } from './bars.js';
import { codeOf, linkTo } from './links.js';
import { oftenOf } from './often.js';
import { pictureOfObject } from './picture.js';

const SIDE = 122;
const ROWS = 3;

/** @type {(object: LifeObject) => boolean} */
const isMoving = ({ letter }) => letter === 'p' || letter === 'q';

/**
 * A tag says the period of what moves, and which object couldn't be separated.
 * @type {(object: LifeObject) => Contents[]}
 */
const tagsOf = object => [
  isMoving(object) && element('span', { class: `tag ${object.letter}`, title: kindWords(object) }, `p${object.period}`),
  object.isUnsure && element('span', { class: 'tag', title: 'It couldn’t be separated into parts.' }, NOT_SEPARATED),
];

/** @type {(object: LifeObject) => string} */
const shortKind = object => {
  const kind = KIND_WORDS[object.letter];
  if (isMoving(object)) return `p${object.period} ${kind}`;
  return object.cells ? `${kind}, ${object.cells} cells` : kind;
};

/** @type {(object: LifeObject) => any} */
const named = object => object.label ? element('b', {}, object.label) : element('i', {}, shortKind(object));

/** @type {(object: LifeObject) => Contents} */
const countsOf = object => {
  const way = wayOf(object);
  if (isCompared) return [barsOf(way), unitOf(object)];
  const [total] = way.totals;
  const unit = element('span', { class: 'unit' }, ` ${noun(total, 'object')}`);
  return element('span', { class: 'counts' }, element('span', { class: 'total' }, whole(total), unit), oftenOf(object));
};

/** @type {(object: LifeObject, at: number, count: number) => any} */
const cardOf = (object, at, count) => {
  const picture = element('span', { class: 'picture' }, pictureOfObject(object, SIDE));
  const words = element('span', { class: 'words' }, named(object), codeOf(object), countsOf(object));
  return element('div', { class: 'card', role: 'listitem', 'aria-posinset': at + 1, 'aria-setsize': count },
    linkTo(object.code, {}, [picture, words]),
    element('span', { class: 'tags' }, tagsOf(object)));
};

const makeChunk = () => element('div', { class: 'chunk', role: 'none' });

/** @type {View} */
export const GALLERY = {
  rows: ROWS,
  make: () => element('div', { class: 'gallery', role: 'list' }),
  chunk: makeChunk,
  measure: gallery => {
    const probe = makeChunk();
    gallery.append(probe);
    const style = getComputedStyle(probe);
    const columns = style.gridTemplateColumns.split(' ').length;
    const height = parseFloat(style.gridAutoRows) + parseFloat(style.rowGap);
    probe.remove();
    return { columns, height };
  },
  fill: (chunk, objects, first, count) => {
    chunk.style.containIntrinsicHeight = chunk.style.height;
    chunk.style.height = '';
    fill(chunk, objects.map((object, at) => cardOf(object, first + at, count)));
  },
  empty: (chunk, height) => {
    fill(chunk);
    chunk.style.height = `${height}px`;
  },
};
