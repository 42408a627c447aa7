/**
 * Pictures of objects: live cells on a faint grid, with a margin of one cell.
 *
 * @import { Box, Cells } from '../life/cells.js'
 * @import { LifeObject } from '../model/objects.js'
 */
import { element } from '../elements.js';
import { boxOf, runsOf } from '../life/cells.js';
import { cellsOfCode, isLarge } from '../life/codes.js';
import { firstWith, recurrenceIn } from '../model/objects.js';

// Small objects don't get cells that are wider than MOST_CELL. A grid of cells narrower than LEAST_GRID isn't drawn.
const MOST_CELL = 22;
const LEAST_GRID = 4;

/** @type {(cells: Cells, box: Box) => string} */
const pathOfCells = (cells, box) => runsOf(cells)
  .map(({ x, y, length }) => `M${x - box.left} ${y - box.top}h${length}v1h-${length}z`)
  .join('');

/** @type {(box: Box) => string} */
const gridPath = ({ width, height }) => {
  let path = '';
  for (let x = -1; x <= width + 1; x += 1) path += `M${x}-1v${height + 2}`;
  for (let y = -1; y <= height + 1; y += 1) path += `M-1 ${y}h${width + 2}`;
  return path;
};

/**
 * Returns the width of a cell with which a picture fits into a square.
 * @type {(box: Box, side: number) => number}
 */
const cellWidth = ({ width, height }, side) => {
  const most = Math.min(MOST_CELL, side / (width + 2), side / (height + 2));
  return most >= 2 ? Math.floor(most) : most;
};

/**
 * Draws a pattern in the box of all its phases, so that these can be shown one after another.
 * @type {(phases: Cells[], side: number, title?: string) => any}
 */
export const pictureOf = (phases, side, title = '') => {
  const box = boxOf(phases);
  const scale = cellWidth(box, side);
  const width = box.width + 2;
  const height = box.height + 2;
  const paths = phases.map(cells => pathOfCells(cells, box));
  const attributes = {
    class: 'drawing',
    width: width * scale,
    height: height * scale,
    viewBox: `-1 -1 ${width} ${height}`,
    ...title ? { role: 'img', 'aria-label': title } : { 'aria-hidden': 'true' },
    'data-phases': paths.length > 1 && paths.join('|'),
  };
  const grid = scale >= LEAST_GRID && element('path', { class: 'grid', d: gridPath(box) });
  return element('svg', attributes, element('path', { class: 'live', d: paths[0] }), grid);
};

/** @type {(object: LifeObject, side: number) => any} */
export const pictureOfObject = (object, side) => {
  const cells = cellsOfCode(object.code);
  const why = isLarge(object.code) ? 'too large to draw' : "can't be drawn";
  if (!cells) return element('span', { class: 'undrawn' }, why);
  const known = object.period > 1 ? recurrenceIn(object, firstWith(object)) : null;
  return pictureOf(known ? known.phases : [cells], side);
};
