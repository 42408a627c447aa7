/**
 * The dialog, which shows an object or a long life at an address of its own.
 *
 * @import { Contents } from '../elements.js'
 * @import { LifeObject } from '../model/objects.js'
 */
import { byId, element, fill, setAttribute } from '../elements.js';
import { writeAddress } from '../model/address.js';
import { addressOf, addressOfLife, open } from '../model/choice.js';
import { hauls, isCompared } from '../model/data.js';
import { objects } from '../model/objects.js';
import { hasSoup, lives, samplesIn, soupOf, soupOfLife } from '../model/soups.js';
import { isWatched, playPhases, showNextPhase, showPhase, unwatch, watch } from '../views/phases.js';
import { copyText, forgetCopies } from './copying.js';
import { lifeBody, lifeHead, neighbourOfLife } from './life_contents.js';
import { neighbourOf, objectBody, objectHead, rleOfObject } from './object_contents.js';
import { beginPlayer, commandOfSoup, endPlayer, rleOfSoup, startNextPlayer, startPlayer } from './playing.js';

const dialog = byId('object');
// The code or the long life in the dialog.
const shown = { code: '', life: '' };

// ---- What it shows

/** @type {(...contents: Contents[]) => void} */
const fillDialog = (...contents) => {
  endPlayer();
  fill(dialog, contents);
  Object.assign(shown, { code: open.code, life: open.life });
  for (const svg of dialog.querySelectorAll('.large svg[data-phases]')) {
    showPhase(svg, 0);
    watch(svg);
    svg.closest('.large').querySelector('[data-act=phases]').textContent = isWatched(svg) ? 'Pause' : 'Play';
  }
  if (!dialog.open) dialog.showModal();
  dialog.style.setProperty('--head', `${dialog.firstChild.offsetHeight}px`);
  dialog.scrollTop = 0;
  byId('object-name').focus();
};

/**
 * Shows the soup that the address names below the object, if it is one of its samples.
 * @type {(object: LifeObject) => void}
 */
const showSoup = object => {
  endPlayer();
  const haul = hauls.find(({ letter }) => letter === open.soup[0]);
  const samples = haul ? samplesIn(object, haul).filter(one => hasSoup(one, haul)) : [];
  const number = samples.find(one => `${haul.letter}${one}` === open.soup);
  const address = number === undefined ? '' : addressOf(object.code, open.soup);
  for (const link of dialog.querySelectorAll('.soup')) {
    setAttribute(link, 'aria-current', link.getAttribute('href') === address);
  }
  fill(byId('player'));
  if (number === undefined) return;
  const title = `Soup ${number}${isCompared ? ` of ${haul.letter}, ${haul.rule}` : ''}`;
  beginPlayer(soupOf(number, haul), object, element('h3', {}, title));
  byId('player').scrollIntoView({ block: 'nearest' });
};

const showObject = () => {
  const object = objects.get(open.code);
  if (!dialog.open || shown.code !== open.code) fillDialog(objectHead(object), objectBody(object));
  showSoup(object);
};

const showLife = () => {
  if (dialog.open && shown.life === open.life) return;
  const life = lives.get(open.life);
  fillDialog(lifeHead(life), lifeBody(life));
  beginPlayer(soupOfLife(life), null);
};

/** Shows what is open, or closes the dialog. */
export const showOpen = () => {
  if (open.life) showLife();
  else if (open.code) showObject();
  else if (dialog.open) dialog.close();
};

// ---- Its buttons

/** @type {(button: any) => any} */
const pictureBeside = button => button.closest('.large').querySelector('svg');

/** @type {(button: any) => void} */
const playOrPausePhases = button => {
  const svg = pictureBeside(button);
  const isPlaying = isWatched(svg);
  if (isPlaying) unwatch(svg);
  else playPhases(svg);
  button.textContent = isPlaying ? 'Play' : 'Pause';
};

/** @type {(button: any) => void} */
const stepPhases = button => {
  showNextPhase(pictureBeside(button));
  button.previousSibling.textContent = 'Play';
};

/** @type {Record<string, (button: any) => void>} */
const ACTS = {
  close: () => dialog.close(),
  rle: button => copyText(rleOfObject(objects.get(open.code)), 'RLE', button),
  'soup-rle': button => copyText(rleOfSoup(), 'RLE of the soup', button),
  command: button => copyText(commandOfSoup(), 'command', button),
  phases: playOrPausePhases,
  phase: stepPhases,
};

const listenToButtons = () => dialog.addEventListener('click', ({ target }) => {
  const button = target.closest('button');
  const act = ACTS[button?.dataset.act];
  if (act) act(button);
  else if (target === dialog) dialog.close();
});

const listenToEnd = () => dialog.addEventListener('close', () => {
  endPlayer();
  fill(dialog);
  if (!open.code && !open.life) return;
  Object.assign(open, { code: '', soup: '', life: '' });
  writeAddress();
});

// ---- Keys and links

const STEPS_OF_KEYS = { ArrowLeft: -1, ArrowRight: 1 };

/** @type {(event: any) => boolean} */
const hasModifier = event => event.altKey || event.ctrlKey || event.metaKey || event.shiftKey;

/**
 * Returns the address of the object or the long life before or after the one that is open.
 * @type {(step: number) => string}
 */
const addressBeside = step => {
  const life = open.life && neighbourOfLife(open.life, step);
  if (life) return addressOfLife(life);
  const object = neighbourOf(objects.get(open.code), step);
  return object ? addressOf(object.code) : '';
};

/** Has the arrow keys go through the objects or the long lives, except where they do something else. */
const listenToKeys = () => dialog.addEventListener('keydown', event => {
  const step = STEPS_OF_KEYS[event.key];
  if (!step || hasModifier(event) || event.target.closest('canvas, select, textarea')) return;
  const address = addressBeside(step);
  if (!address) return;
  event.preventDefault();
  location.hash = address;
});

/** Has a sample soup that is clicked play at once. */
const listenToSamples = () => document.addEventListener('click', ({ target }) => {
  const link = /** @type {any} */ (target).closest?.('a[href*="&soup="]');
  if (!link) return;
  if (link.hash === location.hash) startPlayer();
  else startNextPlayer();
});

/** Has a long life that is clicked play at once, and keeps what is chosen on the page. */
const listenToLives = () => document.addEventListener('click', event => {
  const link = /** @type {any} */ (event.target).closest?.('a[href^="#life="]');
  if (!link || event.ctrlKey || event.metaKey || event.shiftKey) return;
  event.preventDefault();
  const [, soup] = /^#life=(\d+)/.exec(link.getAttribute('href'));
  if (open.life === soup && dialog.open) {
    startPlayer();
  } else {
    startNextPlayer();
    location.hash = addressOfLife(soup);
  }
});

export const startDialog = () => {
  forgetCopies(dialog);
  listenToButtons();
  listenToEnd();
  listenToKeys();
  listenToSamples();
  listenToLives();
};
