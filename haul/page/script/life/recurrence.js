/**
 * The phases of objects.
 *
 * @import { Cells } from './cells.js'
 * @import { Rule } from './generations.js'
 * @typedef {{ phases: Cells[], period: number, dx: number, dy: number }} Recurrence the phases, and how far the object
 *   moves in its period
 */
import { FAR } from './cells.js';
import { cellsOfCode, kindOf } from './codes.js';
import { nextCells } from './generations.js';

// Phases of objects with a longer period aren't shown.
const MOST_PERIOD = 64;

/** @type {(cells: Cells, step: number) => Cells} */
const moved = (cells, step) => new Set([...cells].map(cell => cell + step));

/** @type {(one: Cells, other: Cells) => boolean} */
const isSame = (one, other) => one.size === other.size && [...one].every(cell => other.has(cell));

/**
 * Returns the phases of an object, or null if the pattern doesn't recur as its code says.
 * @type {(code: string, rule: Rule) => Recurrence | null}
 */
export const recurrenceOf = (code, rule) => {
  const { letter, period } = kindOf(code);
  const cells = cellsOfCode(code);
  if (!cells || !period || period > MOST_PERIOD) return null;
  const phases = [cells];
  while (phases.length < period && phases.at(-1).size) phases.push(nextCells(phases.at(-1), rule));
  const again = nextCells(phases.at(-1), rule);
  if (!again.size) return null;
  const step = Math.min(...again) - Math.min(...cells);
  if (!isSame(moved(cells, step), again) || (step !== 0) !== (letter === 'q')) return null;
  const dy = Math.round(step / FAR);
  return { phases, period, dx: step - dy * FAR, dy };
};
