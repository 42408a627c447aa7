/**
 * The contents of the dialog of a long life.
 *
 * @import { Life } from '../model/soups.js'
 */
import { element } from '../elements.js';
import { addressOfLife } from '../model/choice.js';
import { lives } from '../model/soups.js';
import { factOf } from './facts.js';
import { dialogHead, stepLink } from './head.js';

/**
 * Returns the soup before or after this one in the lists.
 * @type {(soup: string, step: number) => string | undefined}
 */
export const neighbourOfLife = (soup, step) => {
  const all = [...lives.keys()];
  return all[all.indexOf(soup) + step];
};

/** @type {(life: Life) => any} */
export const lifeHead = ({ soup }) => {
  const before = neighbourOfLife(String(soup), -1);
  const after = neighbourOfLife(String(soup), 1);
  return dialogHead(`Soup ${soup}`, [
    before && stepLink('Previous soup', '‹', addressOfLife(before), `Soup ${before}`),
    after && stepLink('Next soup', '›', addressOfLife(after), `Soup ${after}`),
  ]);
};

/** @type {(life: Life) => any} */
export const lifeBody = ({ words }) => element('div', { class: 'body' },
  element('dl', { class: 'facts' }, factOf('what became of it', words)),
  element('div', { id: 'player' }));
