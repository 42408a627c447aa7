/**
 * The facts about an object.
 *
 * @import { Contents } from '../elements.js'
 * @import { Cells } from '../life/cells.js'
 * @import { Recurrence } from '../life/recurrence.js'
 * @import { Haul } from '../model/data.js'
 * @import { LifeObject } from '../model/objects.js'
 */
import { element } from '../elements.js';
import { boxOf } from '../life/cells.js';
import { cellsOfCode } from '../life/codes.js';
import { nameOf, objects } from '../model/objects.js';
import { differs, intervalOf, intervalWords, ratioWords } from '../model/rates.js';
import { NOT_SEPARATED, STRICT, kindWords, oftenWords, perMillion, tallied, whole } from '../model/words.js';
import { markOf } from '../views/bars.js';
import { linkTo } from '../views/links.js';
import { pictureOfObject } from '../views/picture.js';

const PART_SIDE = 40;

/** @type {(name: string, ...value: Contents[]) => any} */
export const factOf = (name, ...value) => element('div', {}, element('dt', {}, name), element('dd', {}, value));

// ---- What it is

/** @type {(a: number, b: number) => number} */
const divisor = (a, b) => b ? divisor(b, a % b) : a;

/** @type {(known: Recurrence) => string} */
const speedWords = ({ dx, dy, period }) => {
  const far = Math.max(Math.abs(dx), Math.abs(dy));
  const less = Math.min(Math.abs(dx), Math.abs(dy));
  if (less && less !== far) return `(${far}, ${less})c/${period}`;
  const shared = divisor(far, period);
  const cells = far / shared === 1 ? '' : far / shared;
  return `${cells}c/${period / shared} ${less ? 'diagonal' : 'orthogonal'}`;
};

/** @type {(cells: Cells[]) => string} */
const boxWords = cells => {
  const { width, height } = boxOf(cells);
  return `${width} by ${height}`;
};

/** @type {(phases: Cells[]) => Contents} */
const sizeFacts = phases => {
  const sizes = phases.map(({ size }) => size);
  const isSteady = new Set(sizes).size === 1;
  const box = boxWords([phases[0]]);
  const all = boxWords(phases);
  return [
    isSteady ? factOf('cells', sizes[0]) : factOf('cells in each phase', sizes.join(', ')),
    factOf('bounding box', box === all ? box : `${box}, all phases ${all}`),
  ];
};

/** @type {(known: Recurrence) => any} */
const displacementFact = known => factOf('displacement',
  `(${known.dx}, ${known.dy}) in ${known.period} generations, which is ${speedWords(known)}`);

/** @type {(object: LifeObject, known: Recurrence | null) => Contents} */
export const kindFacts = (object, known) => {
  const { letter, period } = object;
  const cells = cellsOfCode(object.code);
  const drawn = cells ? [cells] : [];
  const phases = known ? known.phases : drawn;
  const countFact = Boolean(object.cells) && factOf('cells', object.cells);
  return [
    factOf('kind', kindWords({ letter, period: known?.period ?? period })),
    known && letter === 'q' && displacementFact(known),
    phases.length ? sizeFacts(phases) : countFact,
    cells && !known && factOf('phases', 'not known, since the drawing doesn’t recur as the code says'),
  ];
};

// ---- Its parts

/** @type {(parts: string[]) => [string, number][]} */
const countParts = parts => [...tallied(parts, code => code)];

/** @type {(part: [string, number]) => string} */
const partWords = ([code, count]) => {
  const part = objects.get(code);
  const name = part ? nameOf(part) : code;
  return count > 1 ? `${count} × ${name}` : name;
};

/** @type {(part: [string, number]) => any} */
const partLink = ([code, count]) => {
  const part = objects.get(code);
  const picture = part && pictureOfObject(part, PART_SIDE);
  return linkTo(code, { class: 'part' }, [picture, element('span', {}, partWords([code, count]))]);
};

/** @type {(object: LifeObject, haul: Haul) => any} */
export const partsFact = ({ made }, { place }) => {
  const parts = made[place];
  if (parts === STRICT) return factOf('parts', 'none: it is strict');
  if (parts === NOT_SEPARATED || parts === null) return factOf('parts', 'not known: it couldn’t be separated');
  return factOf('parts', countParts(parts).map(partLink));
};

// ---- Its totals

/** @type {(object: LifeObject, haul: Haul, name: 'objects' | 'parts') => any} */
const totalFact = (object, haul, name) => {
  const { place, soups } = haul;
  const way = object[name];
  const total = way.totals[place];
  const made = object.made[place];
  const title = name === 'objects' ? 'as an object' : 'with parts counted';
  // An object that is made of parts is none of the parts.
  if (name === 'parts' && Array.isArray(made) && !Number(total))
    return factOf(title, `counted as ${countParts(made).map(partWords).join(' and ')}`);
  const interval = intervalWords(intervalOf(way, place));
  const rate = ` (${oftenWords(total, soups)}, ${perMillion(way.rates[place])}${interval})`;
  const ratio = place > 0 && [`; ${ratioWords(way, place)}`, differs(way, place) && [' ', markOf()]];
  return factOf(title, element('strong', {}, whole(total)), Number(total) > 0 && rate, ratio);
};

/** @type {(object: LifeObject, haul: Haul) => any[]} */
export const totalFacts = (object, haul) => [totalFact(object, haul, 'objects'), totalFact(object, haul, 'parts')];
