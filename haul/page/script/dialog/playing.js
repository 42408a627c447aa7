/**
 * The player in the dialog.
 *
 * @import { Contents } from '../elements.js'
 * @import { LifeObject } from '../model/objects.js'
 * @import { Soup } from '../model/soups.js'
 */
import { byId, element, fill } from '../elements.js';
import { rleOf } from '../life/rle.js';
import { commandOf } from '../model/soups.js';
import { linkOut, soupOnCatagolue } from '../views/links.js';
import { stillness } from '../views/phases.js';
import { copyButton } from './copying.js';
import { Player } from './player.js';

/** @type {Player | null} */
let player = null;
// A soup that is clicked plays at once, unless the reader wants no motion.
let isToPlay = false;

export const endPlayer = () => {
  player?.end();
  player = null;
};

/** Plays the soup that is there, as a click on it asks for. */
export const startPlayer = () => {
  if (!stillness.matches) player?.start();
};

/** Plays the soup that will be there next. */
export const startNextPlayer = () => {
  isToPlay = !stillness.matches;
};

/** @type {(soup: Soup) => any} */
const actionsOf = soup => element('div', { class: 'actions' },
  copyButton('soup-rle', 'Copy RLE of the soup'),
  copyButton('command', 'Copy the command'),
  linkOut(soupOnCatagolue(soup.number, soup.haul), 'Catagolue'));

/** @type {(soup: Soup) => any} */
const commandWords = soup => element('p', {},
  'In a shell, this command runs the soup with Gokzerd’s verified program ',
  element('code', {}, 'census'),
  ', and prints when it settles and what it leaves: ',
  element('code', { class: 'command' }, commandOf(soup)));

/**
 * Puts a player into its place below a heading. If there is an object, it has a ring at the end.
 * @type {(soup: Soup, object: LifeObject | null, heading?: Contents) => void}
 */
export const beginPlayer = (soup, object, heading = '') => {
  const box = element('div', { class: 'player' });
  fill(byId('player'), heading, box, actionsOf(soup), commandWords(soup));
  player = new Player(box, soup, object);
  if (isToPlay) player.start();
  isToPlay = false;
};

/** Returns the RLE of the soup that plays. */
export const rleOfSoup = () => rleOf(player.soup.cells, player.soup.haul.rule);

/** Returns the command of the soup that plays. */
export const commandOfSoup = () => commandOf(player.soup);

// What is drawn on a canvas doesn't follow the colours of the page by itself.
matchMedia('(prefers-color-scheme: dark)').addEventListener('change', () => player?.draw());
