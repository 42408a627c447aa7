/**
 * What codes and the texts of soups draw.
 *
 * @import { Cells } from './cells.js'
 * @typedef {'s' | 'p' | 'q' | ''} Letter
 */
import { SOUP_SIDE, boxOf, cellAt } from './cells.js';

// A text in extended Wechsler format has strips of five rows. Each character is a column, or a run of dead columns.
const CHARACTERS = '0123456789abcdefghijklmnopqrstuvwxyz';
const STRIP = 5;
const LEAST_LONG_RUN = 4;
const DEAD_COLUMNS = { 0: 1, w: 2, x: 3 };
// A pattern that is larger isn't drawn.
const MOST_SIDE = 1000;

/**
 * Checks whether an object is too large to be drawn by its code.
 * @type {(code: string) => boolean}
 */
export const isLarge = code => code.startsWith('ov_');

/**
 * Checks whether a text could be a code. A haul of apgsearch may have any text in place of a code, but only what could
 * be one is part of an address, on this page or elsewhere.
 * @type {(code: string) => boolean}
 */
export const isLinkable = code => /^[0-9a-z_]+$/.test(code);

/**
 * Returns what the prefix of a code says: `s`, `p` or `q`, or nothing if there is no such prefix, and the period.
 * @type {(code: string) => { letter: Letter, period: number }}
 */
export const kindOf = code => {
  const found = /^(?:x|ov_)([spq])(\d+)/.exec(code);
  if (!found) return { letter: '', period: 0 };
  const letter = /** @type {Letter} */ (found[1]);
  return { letter, period: letter === 's' ? 1 : Number(found[2]) };
};

/**
 * Returns the live cells of a column, from the top down.
 * @type {(character: string, x: number, top: number) => number[]}
 */
const cellsOfColumn = (character, x, top) => {
  const column = CHARACTERS.indexOf(character);
  const cells = [];
  for (let row = 0; row < STRIP; row += 1) {
    if (column >> row & 1) cells.push(cellAt(x, top + row));
  }
  return cells;
};

/**
 * Returns the cells that a text in extended Wechsler format draws, or null if it ends in the middle of a run.
 * @type {(text: string) => Cells | null}
 */
const cellsOfText = text => {
  const cells = new Set();
  let x = 0;
  let top = 0;
  for (let place = 0; place < text.length; place += 1) {
    const character = text[place];
    if (character === 'z') {
      x = 0;
      top += STRIP;
    } else if (character in DEAD_COLUMNS) {
      x += DEAD_COLUMNS[character];
    } else if (character === 'y') {
      place += 1;
      if (place === text.length) return null;
      x += LEAST_LONG_RUN + CHARACTERS.indexOf(text[place]);
    } else {
      cellsOfColumn(character, x, top).forEach(cell => cells.add(cell));
      x += 1;
    }
  }
  return cells;
};

/**
 * Returns the cells that a code draws, or null if it draws none.
 * @type {(code: string) => Cells | null}
 */
export const cellsOfCode = code => {
  const cells = cellsOfText(/^x[spq]\d+_([0-9a-z]+)$/.exec(code)?.[1] ?? '');
  if (!cells?.size) return null;
  const { width, height } = boxOf([cells]);
  return Math.max(width, height) <= MOST_SIDE ? cells : null;
};

/**
 * Returns the cells of a soup from its 256 bits in base64, row by row.
 * @type {(base64: string) => Cells}
 */
export const cellsOfSoup = base64 => {
  const bits = [...atob(base64)].map(byte => byte.charCodeAt(0).toString(2).padStart(8, '0')).join('');
  const cells = new Set();
  [...bits].forEach((bit, place) => {
    if (bit === '1') cells.add(cellAt(place % SOUP_SIDE, Math.floor(place / SOUP_SIDE)));
  });
  return cells;
};
