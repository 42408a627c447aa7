/**
 * A soup as it evolves.
 *
 * This is JavaScript and not proved, so at the end it is compared with what `census` says.
 *
 * @import { Box, Cells } from './cells.js'
 * @import { Row, Rule } from './generations.js'
 * @import { Ships } from './places.js'
 */
import { boxOf } from './cells.js';
import { cellsOfRows, nextRows, rowsOf } from './generations.js';
import { ashOf } from './places.js';

export class Evolution {
  /**
   * @param {Cells} cells
   * @param {Rule} rule
   */
  constructor(cells, rule) {
    this.rule = rule;
    this.first = rowsOf(cells);
    this.back();
  }

  back() {
    /** @type {Row[]} */
    this.rows = this.first;
    this.generation = 0;
  }

  step() {
    this.rows = nextRows(this.rows, this.rule);
    this.generation += 1;
  }

  cells() {
    return cellsOfRows(this.rows);
  }

  population() {
    return this.rows.reduce((sum, { xs }) => sum + xs.length, 0);
  }

  /**
   * Returns the box around all cells, or around those of no spaceship that flies by itself, if there are others.
   * @param {boolean} isOfAsh
   * @param {Ships} ships
   * @returns {Box}
   */
  box(isOfAsh, ships) {
    const cells = this.cells();
    const ash = isOfAsh ? ashOf(cells, ships) : [];
    return boxOf(ash.length ? ash : [cells]);
  }
}
