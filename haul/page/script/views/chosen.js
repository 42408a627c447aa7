/**
 * The list of the chosen objects, and what is said if there are none.
 *
 * @import { View } from './list.js'
 * @typedef {typeof import('../model/choice.js').choice} Choice
 */
import { byId, element } from '../elements.js';
import { choice, isByParts } from '../model/choice.js';
import { passing, selectObjects, selection } from '../model/selection.js';
import { noun, whole } from '../model/words.js';
import { GALLERY } from './gallery.js';
import { LongList } from './list.js';
import { unwatch, watch } from './phases.js';
import { TABLE } from './table.js';

/** @type {Record<string, View>} */
export const VIEWS = { gallery: GALLERY, table: TABLE };

const box = byId('list');
/** @type {LongList | null} */
let list = null;

// ---- No objects

/**
 * Returns how many objects the search finds with this way of counting, whatever else is chosen.
 * @type {(parts: string) => number}
 */
const countFound = parts => {
  const before = choice.parts;
  choice.parts = parts;
  const found = passing('kind', 'period', 'strict', 'in').length;
  choice.parts = before;
  return found;
};

/**
 * Says that nothing is chosen. Other choices may hide what the search finds: a bi-block is found only if parts aren't
 * counted.
 */
const noObjects = () => {
  const other = isByParts() ? '0' : '1';
  const parts = countFound(choice.parts) > 0 ? choice.parts : other;
  const found = countFound(parts);
  const shows = found ? { 'data-parts': parts, 'data-q': choice.q } : { 'data-parts': choice.parts, 'data-q': '' };
  const button = element('button', { type: 'button', ...shows }, found ? 'Show' : 'Show all');
  const hidden = `The other choices hide ${whole(found)} ${noun(found, 'object')} that the search finds. `;
  return element('p', { class: 'none' }, found ? hidden : 'No object is found. ', button);
};

// ---- The list

export const showList = () => {
  list?.end();
  selectObjects();
  const { objects } = selection;
  const view = VIEWS[choice.view];
  const container = view.make(objects.length);
  box.replaceChildren(container);
  list = new LongList(container, objects, view);
  if (!objects.length) container.after(noObjects());
};

/** Shows all objects, for paper. */
export const showWholeList = () => list.fillAll();

/**
 * Calls `choose` when the head of a column or the button below an empty list is pressed.
 * @type {(choose: (changes: Partial<Choice>) => void) => void}
 */
const listenToButtons = choose => box.addEventListener('click', ({ target }) => {
  const { sort, parts, q } = target.closest('button')?.dataset ?? {};
  if (sort) choose({ sort });
  else if (parts) choose({ kind: '', period: '', in: '', strict: '0', parts, q });
});

/** @type {(event: any) => any} */
const cardOf = ({ target }) => target.closest?.('.card, tr');

/** Plays phases in the card that the pointer or the focus is on. */
const playPhasesInCards = () => {
  for (const [begin, end] of [['pointerover', 'pointerout'], ['focusin', 'focusout']]) {
    box.addEventListener(begin, event => watch(cardOf(event)?.querySelector('svg[data-phases]')));
    box.addEventListener(end, event => {
      const card = cardOf(event);
      const svg = card?.querySelector('svg[data-phases]');
      if (svg && !card.contains(event.relatedTarget)) unwatch(svg);
    });
  }
};

/** @type {typeof listenToButtons} */
export const startList = choose => {
  listenToButtons(choose);
  playPhasesInCards();
};
