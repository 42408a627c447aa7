/**
 * The plot of how the frequency of an object falls with its rank.
 *
 * @import { Attributes, Contents } from '../elements.js'
 * @import { LifeObject } from '../model/objects.js'
 * @import { Axis } from './axes.js'
 * @typedef {{ object: LifeObject, value: number }[]} Series the objects of a haul by rank
 * @typedef {{ width: number, ranks: Axis, values: Axis }} Plot its width in points, and its axes
 */
import { element, spaced } from '../elements.js';
import { isByParts, wayName, wayOf } from '../model/choice.js';
import { hauls, isCompared } from '../model/data.js';
import { objects } from '../model/objects.js';
import { whole } from '../model/words.js';
import { letterOf } from '../views/bars.js';
import { logarithmicAxis, short, valueOf } from './axes.js';

const HEIGHT = 264;
const LEFT = 64;
const RIGHT = 14;
const TOP = 12;
const FLOOR = HEIGHT - 40;
// About the width of a letter.
const LETTER = 7;

// ---- The objects by rank

/** @type {(place: number) => Series} */
const rankedIn = place => [...objects.values()]
  .filter(object => Number(wayOf(object).totals[place]) > 0 && !object.isLeftOut[wayName()])
  .map(object => ({ object, value: valueOf(object, place) }))
  .sort((a, b) => b.value - a.value);

/**
 * Returns where the rarest are: the objects of which there are fewest, which have the last ranks.
 * @type {(series: Series) => { same: LifeObject[], value: number, first: number, last: number }}
 */
const rarestOf = series => {
  const { value } = series.at(-1);
  const same = series.filter(one => one.value === value).map(({ object }) => object);
  return { same, value, first: series.length - same.length + 1, last: series.length };
};

/** @type {(object: LifeObject, place: number) => string} */
const timesWords = (object, place) => {
  const total = wayOf(object).totals[place];
  return String(total) === '1' ? 'once' : `${whole(total)} times`;
};

/** @type {(same: LifeObject[]) => string} */
const strictWords = same => {
  const strict = same.filter(({ isStrict }) => isStrict).length;
  if (isByParts()) return '';
  if (same.length === 1) return `, which ${strict ? 'is' : 'isn’t'} strict`;
  return `, of these ${whole(strict)} strict`;
};

/** @type {(series: Series, place: number) => string} */
const rarestWords = (series, place) => {
  const { same, first, last } = rarestOf(series);
  const isOne = same.length === 1;
  const haul = isCompared ? `${hauls[place].letter}: ` : '';
  const kinds = isOne ? 'One kind was' : `${whole(same.length)} kinds were`;
  const ranks = isOne ? `rank ${whole(last)}` : `ranks ${whole(first)} to ${whole(last)}`;
  return `${haul}${kinds} found ${timesWords(same[0], place)} (${ranks})${strictWords(same)}.`;
};

// ---- The drawing

/** @type {(plot: Plot, rank: number) => number} */
const xOfRank = ({ width, ranks }, rank) => LEFT + ranks.at(rank) * (width - LEFT - RIGHT);

/** @type {(plot: Plot, value: number) => number} */
const yOfValue = ({ values }, value) => FLOOR - values.at(value) * (FLOOR - TOP);

/** @type {(name: string, d: string, more?: Attributes) => any} */
const pathOf = (name, d, more = {}) => element('path', { class: name, d, ...more });

/** @type {(x: number, y: number, text: string, anchor?: string) => any} */
const textAt = (x, y, text, anchor = 'middle') => {
  const place = { x: x.toFixed(1), y: y.toFixed(1), 'text-anchor': anchor };
  return element('text', place, text);
};

/**
 * Returns the path that draws points. Points that fall on one place are one.
 * @type {(points: [number, number][]) => string}
 */
const dots = points => [...new Set(points.map(([x, y]) => `M${x.toFixed(1)} ${y.toFixed(1)}h0`))].join('');

/** @type {(plot: Plot) => Contents} */
const gridOf = plot => {
  const across = plot.ranks.marks.map(mark => {
    const x = xOfRank(plot, mark);
    return [pathOf('rule', `M${x.toFixed(1)} ${TOP}V${FLOOR}`), textAt(x, FLOOR + 16, short(mark))];
  });
  const down = plot.values.marks.map(mark => {
    const y = yOfValue(plot, mark);
    const rule = pathOf('rule', `M${LEFT} ${y.toFixed(1)}H${plot.width - RIGHT}`);
    return [rule, textAt(LEFT - 6, y + 4, short(mark), 'end')];
  });
  return [across, down];
};

/** @type {(plot: Plot) => Contents} */
const namesOfAxes = ({ width }) => {
  const turned = { transform: `translate(14 ${(TOP + FLOOR) / 2}) rotate(-90)`, 'text-anchor': 'middle' };
  return [
    textAt((LEFT + width - RIGHT) / 2, HEIGHT - 6, 'rank'),
    element('text', turned, isCompared ? 'per million soups' : `number of ${wayName()}`),
  ];
};

/**
 * Draws a bracket above the rarest objects. What it says is at its right, or above it if there is no room.
 * @type {(plot: Plot, series: Series, place: number) => Contents}
 */
const bracketOf = (plot, series, place) => {
  const { value, first, last, same } = rarestOf(series);
  const from = xOfRank(plot, first);
  const to = xOfRank(plot, last);
  const y = yOfValue(plot, value);
  const words = `found ${timesWords(same[0], place)}`;
  const hasRoom = to + LETTER * words.length < plot.width - RIGHT;
  return [
    pathOf('rarest', `M${from.toFixed(1)} ${y - 7}v-5H${Math.max(to, from + 2).toFixed(1)}v5`),
    hasRoom ? textAt(to + 6, y - 4, words, 'start') : textAt(plot.width - RIGHT - 2, y - 20, words, 'end'),
  ];
};

/** @type {(plot: Plot, series: Series, place: number) => Contents} */
const seriesOf = (plot, series, place) => {
  /** @type {[number, number][]} */
  const points = series.map(({ value }, at) => [xOfRank(plot, at + 1), yOfValue(plot, value)]);
  if (isCompared) return pathOf('dots', dots(points), { 'data-haul': hauls[place].letter });
  const strict = points.filter((_, at) => series[at].object.isStrict);
  return [pathOf('dots', dots(points)), pathOf('dots strict', dots(strict)), bracketOf(plot, series, place)];
};

/** @type {() => Contents} */
const keyOf = () => {
  if (isCompared) return spaced(hauls.map(haul => element('span', {}, letterOf(haul), ` ${haul.rule}`)));
  if (isByParts()) return '';
  return spaced([
    element('span', {}, element('i', { class: 'dot strict' }), ' strict'),
    element('span', {}, element('i', { class: 'dot' }), ' made of parts'),
  ]);
};

/**
 * Returns the contents of a figure that is this wide, in points.
 * @type {(width: number) => Contents}
 */
export const rankChart = width => {
  const all = hauls.map(({ place }) => rankedIn(place));
  const ranks = logarithmicAxis([1, Math.max(...all.map(series => series.length), 2)]);
  const plot = { width, ranks, values: logarithmicAxis(all.flat().map(({ value }) => value)) };
  const there = hauls.filter(({ place }) => all[place].length);
  const words = there.map(({ place }) => rarestWords(all[place], place)).join(' ');
  const label = `Frequency by rank. ${words}`;
  const frame = { class: 'plot', viewBox: `0 0 ${width} ${HEIGHT}`, role: 'img', 'aria-label': label };
  return [
    element('figcaption', {},
      `Rank and frequency of ${wayName()}, logarithmic axes `, element('span', { class: 'key' }, keyOf())),
    element('svg', frame, gridOf(plot), namesOfAxes(plot), there.map(({ place }) => seriesOf(plot, all[place], place))),
    element('p', { class: 'note' }, words),
  ];
};
