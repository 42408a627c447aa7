/**
 * The picture and the buttons of the player.
 *
 * @import { Attributes, Contents } from '../elements.js'
 * @import { Soup } from '../model/soups.js'
 */
import { element } from '../elements.js';
import { noEndWords } from './player_words.js';

/** @type {[number, string][]} */
const SPEEDS = [
  [5, '5 per second'],
  [20, '20 per second'],
  [60, '60 per second'],
  [300, '300 per second'],
  [100000, 'as fast as it goes'],
];
export const FIRST_SPEED = 60;

/** @type {(act: string, text: string, more?: Attributes) => any} */
const buttonOf = (act, text, more = {}) => element('button', { type: 'button', 'data-act': act, ...more }, text);

const speedChoice = () => {
  const options = SPEEDS.map(([value, text]) => element('option', { value, selected: value === FIRST_SPEED }, text));
  return element('label', { class: 'speed' },
    element('span', { class: 'hidden' }, 'Generations per second'),
    element('select', { autocomplete: 'off' }, options));
};

const buttons = () => element('div', { class: 'buttons' },
  element('span', {},
    buttonOf('play', 'Play'),
    buttonOf('step', 'Step'),
    buttonOf('back', 'To the start'),
    buttonOf('end', 'To the end')),
  element('span', {},
    speedChoice(),
    buttonOf('out', '−', { 'aria-label': 'Zoom out' }),
    buttonOf('in', '+', { 'aria-label': 'Zoom in' })),
  element('span', {},
    buttonOf('ash', 'Follow the ash'),
    buttonOf('fit', 'Fit all'),
    buttonOf('ring', 'To the ring', { hidden: true })));

/** @type {(soup: Soup) => Contents} */
export const playerContents = soup => {
  const label = `Soup ${soup.number} as it runs. The arrow keys move the view, + and - zoom.`;
  const note = noEndWords(soup);
  return [
    element('canvas', { tabindex: 0, role: 'img', 'aria-label': label }),
    element('output', { 'aria-live': 'off' }),
    buttons(),
    note && element('p', { class: 'note' }, note),
  ];
};
