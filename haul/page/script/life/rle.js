/**
 * Writes patterns as RLE.
 *
 * @import { Cells } from './cells.js'
 */
import { boxOf, runsOf } from './cells.js';

const MOST_CHARACTERS = 70;

/** @type {(count: number, tag: string) => string} */
const countedTag = (count, tag) => {
  if (count === 0) return '';
  return count === 1 ? tag : count + tag;
};

/** @type {(cells: Cells) => string[]} */
const tokensOf = cells => {
  const { left, top } = boxOf([cells]);
  const tokens = [];
  let column = left;
  let row = top;
  for (const { x, y, length } of runsOf(cells)) {
    if (y > row) column = left;
    tokens.push(countedTag(y - row, '$'), countedTag(x - column, 'b'), countedTag(length, 'o'));
    column = x + length;
    row = y;
  }
  return [...tokens, '!'];
};

/**
 * Returns a trimmed pattern as RLE, in lines of at most 70 characters.
 * @type {(cells: Cells, rule: string) => string}
 */
export const rleOf = (cells, rule) => {
  const { width, height } = boxOf([cells]);
  const lines = [`x = ${width}, y = ${height}, rule = ${rule}`, ''];
  for (const token of tokensOf(cells)) {
    if (lines.at(-1).length + token.length > MOST_CHARACTERS) lines.push('');
    lines[lines.length - 1] += token;
  }
  return `${lines.join('\n')}\n`;
};
