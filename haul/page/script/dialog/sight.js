/**
 * The part of the plane that is in sight, and how it is drawn.
 *
 * @import { Box } from '../life/cells.js'
 * @import { Row } from '../life/generations.js'
 */
import { SOUP_SIDE } from '../life/cells.js';

// A cell is at most as wide, and one that would be narrower than LEAST_DOT is drawn as a dot of that width.
const WIDEST_CELL = 16;
const LEAST_DOT = 1.6;
// The widths of cells to which a reader can zoom.
const LEAST_ZOOM = 0.05;
const MOST_ZOOM = 40;
// The cells around what is fitted, and around what is shown.
const MARGIN = 3;
const AROUND = 20;
// A view that fits doesn't follow what has become a little smaller.
const SMALLER = 1.6;
const LEAST_RING = 9;
const RING_GAP = 5;
const GRID_FROM = 6;

/** Its middle, and the width of a cell in points. While it `fits`, it follows the ash or all cells. */
export class Sight {
  /** @param {any} canvas */
  constructor(canvas) {
    this.canvas = canvas;
    this.x = SOUP_SIDE / 2;
    this.y = SOUP_SIDE / 2;
    this.scale = WIDEST_CELL;
    this.fits = true;
    this.isOfAsh = true;
  }

  size() {
    return { width: this.canvas.clientWidth || 300, height: this.canvas.clientHeight || 300 };
  }

  /**
   * @param {number} x
   * @param {number} y
   * @returns {[number, number]}
   */
  toScreen(x, y) {
    const { width, height } = this.size();
    return [(x - this.x) * this.scale + width / 2, (y - this.y) * this.scale + height / 2];
  }

  /** @param {Box} box */
  isInside({ left, top, width, height }) {
    const size = this.size();
    const [x, y] = this.toScreen(left, top);
    const [right, bottom] = this.toScreen(left + width, top + height);
    return x >= 0 && y >= 0 && right <= size.width && bottom <= size.height;
  }

  /**
   * @param {Box} box
   * @param {number} scale
   */
  moveTo(box, scale) {
    this.scale = Math.min(WIDEST_CELL, scale);
    this.x = box.left + box.width / 2;
    this.y = box.top + box.height / 2;
  }

  /**
   * Fits a box. While it stays inside and isn't much smaller than the view, the view doesn't move.
   * @param {Box} box
   */
  fit(box, now = false) {
    const { width, height } = this.size();
    const scale = Math.min(WIDEST_CELL, width / (box.width + 2 * MARGIN), height / (box.height + 2 * MARGIN));
    if (now || !this.isInside(box) || scale >= this.scale * SMALLER) this.moveTo(box, scale);
  }

  /**
   * Moves in on a box, with some of what is around it.
   * @param {Box} box
   */
  show(box) {
    const { width, height } = this.size();
    this.moveTo(box, Math.min(width, height) / (Math.max(box.width, box.height) + 2 * AROUND));
    this.fits = false;
  }

  /** @param {number} factor */
  zoom(factor) {
    this.scale = Math.min(MOST_ZOOM, Math.max(LEAST_ZOOM, this.scale * factor));
    this.fits = false;
  }

  /**
   * @param {number} dx
   * @param {number} dy
   */
  pan(dx, dy) {
    this.x -= dx / this.scale;
    this.y -= dy / this.scale;
    this.fits = false;
  }
}

// ---- Boxes

/**
 * Returns the box around a ring.
 * @type {(box: Box) => Box}
 */
export const ringBox = ({ left, top, width, height }) => {
  const radius = Math.hypot(width, height) / 2;
  return { left: left + width / 2 - radius, top: top + height / 2 - radius, width: 2 * radius, height: 2 * radius };
};

/**
 * Returns the box around two boxes.
 * @type {(one: Box, other: Box) => Box}
 */
export const joined = (one, other) => {
  const left = Math.min(one.left, other.left);
  const top = Math.min(one.top, other.top);
  const right = Math.max(one.left + one.width, other.left + other.width);
  const bottom = Math.max(one.top + one.height, other.top + other.height);
  return { left, top, width: right - left, height: bottom - top };
};

// ---- Drawing

/**
 * Makes a canvas as sharp as the screen.
 * @type {(sight: Sight) => any}
 */
const clearedPen = sight => {
  const { canvas } = sight;
  const size = sight.size();
  const sharp = devicePixelRatio || 1;
  const width = Math.round(size.width * sharp);
  const height = Math.round(size.height * sharp);
  const pen = canvas.getContext('2d');
  if (canvas.width !== width || canvas.height !== height) Object.assign(canvas, { width, height });
  pen.setTransform(sharp, 0, 0, sharp, 0, 0);
  pen.clearRect(0, 0, size.width, size.height);
  return pen;
};

/** @type {(pen: any, sight: Sight) => void} */
const drawGrid = (pen, sight) => {
  const { scale } = sight;
  if (scale < GRID_FROM) return;
  const { width, height } = sight.size();
  const [left, top] = sight.toScreen(0, 0);
  pen.lineWidth = 1;
  pen.beginPath();
  for (let x = left % scale; x < width; x += scale) {
    pen.moveTo(x, 0);
    pen.lineTo(x, height);
  }
  for (let y = top % scale; y < height; y += scale) {
    pen.moveTo(0, y);
    pen.lineTo(width, y);
  }
  pen.stroke();
};

/** @type {(pen: any, sight: Sight, box: Box) => void} */
const drawRing = (pen, sight, { left, top, width, height }) => {
  const [x, y] = sight.toScreen(left + width / 2, top + height / 2);
  const radius = Math.hypot(width, height) / 2 * sight.scale + RING_GAP;
  pen.lineWidth = 2.5;
  pen.beginPath();
  pen.arc(x, y, Math.max(LEAST_RING, radius), 0, 2 * Math.PI);
  pen.stroke();
};

/** @type {(sight: Sight, rows: Row[], rings: Box[]) => void} */
export const drawPattern = (sight, rows, rings) => {
  const color = name => getComputedStyle(sight.canvas).getPropertyValue(name);
  const pen = clearedPen(sight);
  const dot = Math.max(LEAST_DOT, sight.scale);
  pen.fillStyle = color('--live');
  for (const { y, xs } of rows) {
    for (const x of xs) pen.fillRect(...sight.toScreen(x, y), dot, dot);
  }
  pen.strokeStyle = color('--grid');
  drawGrid(pen, sight);
  pen.strokeStyle = color('--ring');
  rings.forEach(box => drawRing(pen, sight, box));
};
