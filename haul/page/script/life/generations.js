/**
 * The generations of patterns.
 *
 * A pattern that runs is a list of rows, from the top down: each has its y, and the x of its live cells from the left.
 *
 *     row y - 1    . O O .       columns   1 3 2 1     A column counts the live cells of three rows. Three columns side
 *     row y        . O . O                             by side, less the cell itself, are the live neighbours of the
 *     row y + 1    O O O .                             cell in the middle.
 *
 * @import { Cells } from './cells.js'
 * @typedef {{ y: number, xs: number[] }} Row
 * @typedef {{ births: boolean[], survivals: boolean[] }} Rule which numbers of live neighbours a rule has
 * @typedef {{ xs: number[], counts: number[], lives: boolean[] }} Columns
 */
import { cellAt, inOrder, xOf, yOf } from './cells.js';

/** @type {number[]} */
const EMPTY = [];

/** @type {(cells: Cells) => Row[]} */
export const rowsOf = cells => {
  /** @type {Row[]} */
  const rows = [];
  for (const cell of inOrder(cells)) {
    const y = yOf(cell);
    if (rows.at(-1)?.y !== y) rows.push({ y, xs: [] });
    rows.at(-1).xs.push(xOf(cell));
  }
  return rows;
};

/** @type {(rows: Row[]) => Cells} */
export const cellsOfRows = rows => new Set(rows.flatMap(({ y, xs }) => xs.map(x => cellAt(x, y))));

/**
 * Reads a rule such as B3/S23.
 * @type {(text: string) => Rule}
 */
export const ruleOf = text => {
  const [births, survivals] = text.split('/').map(part => [...'012345678'].map(digit => part.includes(digit)));
  return { births, survivals };
};

/**
 * Returns the columns of three rows that have a live cell: where they are, how many live cells they have, and whether
 * the middle one is alive.
 * @type {(above: number[], middle: number[], below: number[]) => Columns}
 */
const columnsOf = (above, middle, below) => {
  const xs = [];
  const counts = [];
  const lives = [];
  let a = 0;
  let m = 0;
  let b = 0;
  while (a < above.length || m < middle.length || b < below.length) {
    const x = Math.min(above[a] ?? Infinity, middle[m] ?? Infinity, below[b] ?? Infinity);
    const isAlive = middle[m] === x;
    let count = 0;
    if (above[a] === x) {
      count += 1;
      a += 1;
    }
    if (isAlive) {
      count += 1;
      m += 1;
    }
    if (below[b] === x) {
      count += 1;
      b += 1;
    }
    xs.push(x);
    counts.push(count);
    lives.push(isAlive);
  }
  return { xs, counts, lives };
};

/**
 * Checks whether the cell at x is alive in the next generation. The columns at x - 1, x and x + 1 are among the five
 * around `at`.
 * @type {(columns: Columns, at: number, x: number, rule: Rule) => boolean}
 */
const isAliveNext = ({ xs, counts, lives }, at, x, { births, survivals }) => {
  let live = 0;
  let isAlive = false;
  for (let column = at - 2; column <= at + 2; column += 1) {
    const step = xs[column] - x;
    if (step >= -1 && step <= 1) live += counts[column];
    if (step === 0) isAlive = lives[column];
  }
  return isAlive ? survivals[live - 1] : births[live];
};

/** @type {(columns: Columns, rule: Rule) => number[]} */
const nextRow = (columns, rule) => {
  const later = [];
  let done = -Infinity;
  const { xs } = columns;
  for (let at = 0; at < xs.length; at += 1) {
    for (let x = Math.max(xs[at] - 1, done + 1); x <= xs[at] + 1; x += 1) {
      if (isAliveNext(columns, at, x, rule)) later.push(x);
      done = x;
    }
  }
  return later;
};

/** @type {(rows: Row[], rule: Rule) => Row[]} */
export const nextRows = (rows, rule) => {
  const later = [];
  // The first row that is not above y - 1.
  let at = 0;
  let y = -Infinity;
  const xsAt = (wanted, from) => rows[from]?.y === wanted ? rows[from].xs : EMPTY;
  while (at < rows.length) {
    y = Math.max(y + 1, rows[at].y - 1);
    let from = at;
    const above = xsAt(y - 1, from);
    if (above !== EMPTY) from += 1;
    const middle = xsAt(y, from);
    if (middle !== EMPTY) from += 1;
    const xs = nextRow(columnsOf(above, middle, xsAt(y + 1, from)), rule);
    if (xs.length) later.push({ y, xs });
    if (above !== EMPTY) at += 1;
  }
  return later;
};

/** @type {(cells: Cells, rule: Rule) => Cells} */
export const nextCells = (cells, rule) => cellsOfRows(nextRows(rowsOf(cells), rule));
