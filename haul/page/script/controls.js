/**
 * The controls, and what is said above the list.
 *
 * @typedef {typeof import('./model/choice.js').choice} Choice
 * @typedef {(changes: Partial<Choice>) => void} Choose
 */
import { byId, element, fill, setAttribute } from './elements.js';
import { FIRST_CHOICE, choice, isByParts, isByReference, listed, open, wayOf } from './model/choice.js';
import { data, hauls, isCompared } from './model/data.js';
import { objects } from './model/objects.js';
import { differs } from './model/rates.js';
import { SORTS, isInAll, isOnlyIn, passing, selection } from './model/selection.js';
import { tallied, whole } from './model/words.js';
import { VIEWS } from './views/chosen.js';

const controls = byId('controls');
const chips = byId('chips');
const query = byId('query');
const sort = byId('sort');
const filter = byId('filter');

// ---- Chips

const KINDS = [['s', 'Still lifes'], ['p', 'Oscillators'], ['q', 'Spaceships']];

/** @type {(name: string, value: string, text: string, count: number, isOn: boolean) => any} */
const chipOf = (name, value, text, count, isOn) => {
  const pressed = { 'data-name': name, 'data-value': value, 'aria-pressed': String(isOn) };
  const number = element('span', { class: 'count' }, whole(count));
  return element('button', { type: 'button', class: 'chip', ...pressed }, `${text} `, number);
};

/** @type {(name: string, text: string, isOn: boolean, isOff?: boolean) => any} */
const checkOf = (name, text, isOn, isOff = false) => {
  const box = { type: 'checkbox', name, autocomplete: 'off', checked: isOn, disabled: isOff };
  return element('label', { class: 'chip check' }, element('input', box), ` ${text}`);
};

/**
 * Makes the chips of kinds and of periods. Each says how many objects it would leave, whatever else is chosen among its
 * like.
 */
const kindChips = () => {
  const kinds = listed(choice.kind);
  const periods = listed(choice.period);
  const some = passing('kind', 'period');
  const ofKind = tallied(some, ({ letter }) => letter);
  const ofPeriod = tallied(some.filter(({ letter }) => letter === 'p'), ({ period }) => period);
  const periodChips = [...ofPeriod]
    .sort(([one], [other]) => one - other)
    .map(([period, count]) => chipOf('period', String(period), `p${period}`, count, periods.includes(String(period))));
  return KINDS.map(([letter, text]) => [
    chipOf('kind', letter, text, ofKind.get(/** @type {any} */ (letter)) ?? 0, kinds.includes(letter)),
    letter === 'p' && kinds.includes('p') && periodChips,
  ]);
};

const haulChips = () => {
  const ways = passing('in').map(wayOf);
  const onlyIn = hauls.map(({ letter }) => {
    const count = ways.filter(way => isOnlyIn(way, letter)).length;
    return chipOf('in', letter, `Only in ${letter}`, count, choice.in === letter);
  });
  return [chipOf('in', 'all', 'In all', ways.filter(isInAll).length, choice.in === 'all'), onlyIn];
};

/**
 * Returns what finds the chip or the box that has the focus, after all are made anew.
 * @type {() => string}
 */
const focusedChip = () => {
  const focused = /** @type {any} */ (document.activeElement);
  if (!focused?.closest?.('#chips')) return '';
  const { name, value } = focused.dataset;
  return focused.name ? `input[name=${focused.name}]` : `[data-name="${name}"][data-value="${value}"]`;
};

const showChips = () => {
  const focused = focusedChip();
  fill(chips,
    kindChips(),
    isCompared && haulChips(),
    checkOf('strict', 'Strict only', choice.strict === '1', isByParts()),
    checkOf('parts', 'Count parts', isByParts()));
  if (focused) chips.querySelector(focused)?.focus();
};

// ---- The other controls

// The choices behind the button of a telephone, which says how many of them aren't the first ones.
const FILTERS = ['kind', 'period', 'strict', 'parts', 'in', 'sort', 'view'];

export const showControls = () => {
  showChips();
  if (query.value !== choice.q) query.value = choice.q;
  sort.value = choice.sort;
  for (const radio of controls.elements.view) radio.checked = radio.value === choice.view;
  filter.lastChild.textContent = FILTERS.filter(name => choice[name] !== FIRST_CHOICE[name]).length || '';
};

const makeControls = () => {
  fill(sort, SORTS.map(([value, text]) => element('option', { value }, text)));
  for (const value of Object.keys(VIEWS)) {
    const radio = element('input', { type: 'radio', name: 'view', value, autocomplete: 'off' });
    byId('view').append(element('label', { class: 'chip' }, radio, ` ${value}`));
  }
};

/** @type {(text: string, value: string) => string} */
const toggled = (text, value) => {
  const values = listed(text);
  return (values.includes(value) ? values.filter(one => one !== value) : [...values, value]).join(',');
};

/**
 * Returns what a chip changes when it is pressed.
 * @type {(name: string, value: string) => Partial<Choice>}
 */
const changesOf = (name, value) => {
  if (name === 'in') return { in: choice.in === value ? '' : value };
  const changes = { [name]: toggled(choice[name], value) };
  // Without oscillators, there are no periods to choose from.
  return name === 'kind' && value === 'p' ? { ...changes, period: '' } : changes;
};

/** @type {(choose: Choose) => void} */
export const startControls = choose => {
  makeControls();
  chips.addEventListener('click', ({ target }) => {
    const chip = target.closest('button');
    if (chip) choose(changesOf(chip.dataset.name, chip.dataset.value));
  });
  controls.addEventListener('change', ({ target }) => {
    const { name, value, checked } = target;
    if (name === 'strict' || name === 'parts') choose({ [name]: checked ? '1' : '0' });
    else if (name === 'view') choose({ view: value });
    else if (target === sort) choose({ sort: value });
  });
  query.addEventListener('input', () => choose({ q: query.value }));
  controls.addEventListener('submit', event => event.preventDefault());
  filter.addEventListener('click', () => {
    setAttribute(filter, 'aria-expanded', String(filter.getAttribute('aria-expanded') === 'false'));
  });
};

// ---- What is said above the list

/** @type {() => string} */
const countWords = () => {
  const kinds = isByParts() ? data.kindsOfParts : data.kinds;
  const sum = selection.objects.reduce((before, object) => before + wayOf(object).total, 0n);
  const every = hauls.reduce((before, haul) => before + BigInt(isByParts() ? haul.parts : haul.objects), 0n);
  const things = isByParts() ? 'parts' : 'objects';
  return `${whole(selection.objects.length)} of ${whole(kinds)} kinds, ${whole(sum)} of ${whole(every)} ${things}.`;
};

/** @type {() => string} */
const unknownWords = () => {
  if (!open.unknown) return '';
  return objects.has(open.unknown)
    ? `The object ${open.unknown} can’t be opened, since its code has other characters than a to z, 0 to 9 and _. `
    : `No object on this page has the code ${open.unknown}. `;
};

/**
 * Explains the bars, and the mark if a card or a row has one.
 * @type {() => string}
 */
const barsWords = () => {
  const isMarked = selection.objects.some(object => hauls.some(({ place }) => differs(wayOf(object), place)));
  return isMarked ? ' Bars: per million soups; * differs from A (p < 0.001).' : ' Bars: per million soups.';
};

export const showCount = () => {
  const leftOut = data.least > 1 ? ` Kinds with fewer than ${whole(data.least)} are left out.` : '';
  const reference = ` “One in” is from the reference, a census of ${whole(data.reference)} soups.`;
  byId('shown').textContent = [
    unknownWords(),
    countWords(),
    leftOut,
    isCompared ? barsWords() : '',
    isByReference() ? reference : '',
  ].join('');
};
