/** The address of the page, which keeps what is chosen and what is open. */
import { isLinkable } from '../life/codes.js';
import { FIRST_CHOICE, addressOf, addressOfLife, choice, open } from './choice.js';
import { objects } from './objects.js';
import { SORTS } from './selection.js';
import { lives } from './soups.js';

// The choices for which only some values are known.
const KNOWN_VALUES = { sort: SORTS.map(([name]) => name), view: ['gallery', 'table'], axis: ['log', 'linear'] };

/** @type {(text: string) => string} */
const decoded = text => {
  try {
    return decodeURIComponent(text);
  } catch {
    return text;
  }
};

/**
 * Splits a piece of the address, such as `sort=rarity`, into its name and its value.
 * @type {(piece: string) => [string, string]}
 */
const readPiece = piece => {
  const [name] = piece.split('=');
  return [name, decoded(piece.slice(piece.indexOf('=') + 1))];
};

/**
 * Reads what is chosen. A value that isn't known is passed over.
 * @type {(given: Record<string, string>) => void}
 */
const readChoice = given => {
  for (const [name, first] of Object.entries(FIRST_CHOICE)) {
    const value = given[name] ?? first;
    choice[name] = KNOWN_VALUES[name]?.includes(value) === false ? first : value;
  }
};

export const readAddress = () => {
  const pieces = location.hash.slice(1).split('&');
  // No code has a `=`, so a first piece with one is a choice.
  const code = pieces[0].includes('=') ? '' : pieces.shift();
  const given = Object.fromEntries(pieces.map(readPiece));
  readChoice(given);
  const isThere = objects.has(code) && isLinkable(code);
  Object.assign(open, {
    code: isThere ? code : '',
    soup: given.soup ?? '',
    unknown: isThere ? '' : decoded(code),
    life: !code && lives.has(given.life) ? given.life : '',
  });
};

export const writeAddress = () => {
  history.replaceState(null, '', open.life ? addressOfLife(open.life) : addressOf(open.code, open.soup));
};
