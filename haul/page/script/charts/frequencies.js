/**
 * The chart of the most frequent objects: totals of the haul, or rates of hauls that are compared.
 *
 * @import { Contents } from '../elements.js'
 * @import { Haul } from '../model/data.js'
 * @import { LifeObject } from '../model/objects.js'
 * @import { Axis } from './axes.js'
 */
import { element } from '../elements.js';
import { choice, isByParts, wayName, wayOf } from '../model/choice.js';
import { hauls, isCompared } from '../model/data.js';
import { nameOf } from '../model/objects.js';
import { figure, whole } from '../model/words.js';
import { linkTo } from '../views/links.js';
import { linearAxis, logarithmicAxis, percent, short, valueOf } from './axes.js';

const MOST_BARS = 20;
const AXES = [['log', 'logarithmic'], ['linear', 'linear']];

/**
 * Draws a bar on a linear axis. On a logarithmic one, where a length means nothing, it is a dot at its end.
 * @type {(object: LifeObject, axis: Axis, haul: Haul) => any}
 */
const barOf = (object, axis, { letter, place }) => {
  const value = valueOf(object, place);
  const width = value ? `max(2px, ${percent(axis.at(value))})` : '0';
  return element('span', { class: value ? 'bar' : 'bar absent', 'data-haul': letter, style: { width } });
};

/** @type {(object: LifeObject) => Contents} */
const valueWords = object => {
  if (!isCompared) return whole(wayOf(object).totals[0]);
  const said = hauls.map(({ letter, place }) => `${letter}: ${figure(valueOf(object, place))}`);
  return element('span', { class: 'hidden' }, said.join(', '));
};

/** @type {(object: LifeObject, axis: Axis) => any} */
const barsOf = (object, axis) => element('div', { role: 'listitem' }, linkTo(object.code, {}, [
  element('span', { class: 'label' }, nameOf(object)),
  element('span', { class: 'track' }, hauls.map(haul => barOf(object, axis, haul))),
  element('span', { class: 'value' }, valueWords(object)),
]));

/** @type {(axis: Axis) => any} */
const marksOf = axis => {
  const marks = axis.marks.map(mark => {
    const left = percent(axis.at(mark));
    return element('span', { class: 'mark', style: { left } }, element('span', {}, short(mark)));
  });
  return element('div', { class: 'marks', 'aria-hidden': 'true' },
    element('span'),
    element('span', { class: 'track' }, marks),
    element('span', { class: 'value' }));
};

const axisSwitch = () => {
  const radios = AXES.map(([value, text]) => {
    const radio = { type: 'radio', name: 'axis', value, autocomplete: 'off', checked: choice.axis === value };
    return element('label', { class: 'chip' }, element('input', radio), ` ${text}`);
  });
  return element('fieldset', { class: 'axis' }, element('legend', { class: 'hidden' }, 'Axis'), radios);
};

/** @type {(objects: LifeObject[]) => Axis} */
const axisFor = objects => {
  const values = objects.flatMap(object => hauls.map(({ place }) => valueOf(object, place)));
  if (choice.axis !== 'log') return linearAxis(values);
  // Numbers of objects are measured from one object on.
  return logarithmicAxis(isCompared ? values : [1, ...values]);
};

/** @type {(ranked: LifeObject[]) => any} */
export const frequencyChart = ranked => {
  const shown = ranked.slice(0, MOST_BARS);
  const axis = axisFor(shown);
  const unit = isCompared ? `${isByParts() ? 'Parts' : 'Objects'} per million soups` : `Number of ${wayName()}`;
  return element('figure', {},
    element('figcaption', {}, `The ${shown.length} most frequent ${wayName()}`, axisSwitch()),
    element('div', { class: `frequencies ${choice.axis}`, role: 'list' }, shown.map(object => barsOf(object, axis))),
    marksOf(axis),
    element('p', { class: 'note' }, `${unit}, ${choice.axis === 'log' ? 'logarithmic' : 'linear'} axis.`));
};
