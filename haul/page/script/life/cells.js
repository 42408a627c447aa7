/**
 * Patterns as sets of cells.
 *
 * A cell is a number, so that a step from one cell to another is a number too. Nothing gets half as far as FAR
 * within the 100,000 generations of a census.
 *
 * @typedef {Set<number>} Cells
 * @typedef {{ left: number, top: number, width: number, height: number }} Box
 * @typedef {{ cell: number, x: number, y: number, length: number }} Run
 */

export const FAR = 2 ** 18;
export const SOUP_SIDE = 16;
const MIDDLE = FAR / 2;

/** @type {(x: number, y: number) => number} */
export const cellAt = (x, y) => (y + MIDDLE) * FAR + x + MIDDLE;

/** @type {(cell: number) => number} */
export const xOf = cell => cell % FAR - MIDDLE;

/** @type {(cell: number) => number} */
export const yOf = cell => Math.floor(cell / FAR) - MIDDLE;

/**
 * Returns cells row by row from the top, and each row from the left.
 * @type {(cells: Iterable<number>) => number[]}
 */
export const inOrder = cells => [...cells].sort((a, b) => a - b);

/**
 * Returns the box around the cells of several patterns.
 * @type {(patterns: Iterable<Iterable<number>>) => Box}
 */
export const boxOf = patterns => {
  let left = Infinity;
  let top = Infinity;
  let right = -Infinity;
  let bottom = -Infinity;
  for (const cells of patterns) {
    for (const cell of cells) {
      const x = xOf(cell);
      const y = yOf(cell);
      if (x < left) left = x;
      if (x > right) right = x;
      if (y < top) top = y;
      if (y > bottom) bottom = y;
    }
  }
  return { left, top, width: right - left + 1, height: bottom - top + 1 };
};

/**
 * Returns the runs of live cells in the rows of a pattern.
 * @type {(cells: Cells) => Run[]}
 */
export const runsOf = cells => {
  /** @type {Run[]} */
  const runs = [];
  for (const cell of inOrder(cells)) {
    const last = runs.at(-1);
    if (last && last.cell + last.length === cell) last.length += 1;
    else runs.push({ cell, x: xOf(cell), y: yOf(cell), length: 1 });
  }
  return runs;
};
