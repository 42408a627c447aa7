/**
 * Where objects are in a pattern. All their phases in all orientations are tried.
 *
 * @import { Cells } from './cells.js'
 * @import { Recurrence } from './recurrence.js'
 * @typedef {number[]} Steps an image of an object: the steps from its first cell to its cells
 * @typedef {{ images: Set<string>, most: number }} Ships the images of spaceships as texts, and the most cells of one
 */
import { FAR, cellAt, inOrder, xOf, yOf } from './cells.js';

// How far apart cells of two objects are, at least, and how far apart those of two parts are.
const APART = 2;
const PARTS_APART = 1;

/**
 * Returns the steps to the cells that are nearer than `gap` allows.
 * @type {(gap: number) => number[]}
 */
const near = gap => {
  const steps = [];
  for (let dy = -gap; dy <= gap; dy += 1) {
    for (let dx = -gap; dx <= gap; dx += 1) {
      if (dx || dy) steps.push(dy * FAR + dx);
    }
  }
  return steps;
};
const AROUND_CELL = near(APART);

/** @type {(cells: Iterable<number>) => Steps} */
const stepsOf = cells => {
  const all = inOrder(cells);
  return all.map(cell => cell - all[0]);
};

/** @type {(cells: Cells) => Steps[]} */
const imagesOf = cells => {
  const points = [...cells].map(cell => [xOf(cell), yOf(cell)]);
  const turned = points.map(([x, y]) => [y, x]);
  const images = new Map();
  for (const some of [points, turned]) {
    for (const across of [1, -1]) {
      for (const down of [1, -1]) {
        const steps = stepsOf(some.map(([x, y]) => cellAt(across * x, down * y)));
        images.set(steps.join(), steps);
      }
    }
  }
  return [...images.values()];
};

// ---- Spaceships that fly by themselves

/** @type {(ships: Recurrence[]) => Ships} */
export const shipsOf = ships => {
  const images = ships.flatMap(({ phases }) => phases.flatMap(imagesOf));
  const most = Math.max(0, ...images.map(steps => steps.length));
  return { images: new Set(images.map(steps => steps.join())), most };
};

/** @type {(cells: Cells) => number[][]} */
const clustersOf = cells => {
  const left = new Set(cells);
  const clusters = [];
  for (const first of cells) {
    if (!left.delete(first)) continue;
    const cluster = [first];
    for (const cell of cluster) {
      for (const step of AROUND_CELL) {
        if (left.delete(cell + step)) cluster.push(cell + step);
      }
    }
    clusters.push(cluster);
  }
  return clusters;
};

/**
 * Returns the clusters of a pattern that aren't a spaceship.
 * @type {(cells: Cells, ships: Ships) => number[][]}
 */
export const ashOf = (cells, { images, most }) => clustersOf(cells)
  .filter(cluster => cluster.length > most || !images.has(stepsOf(cluster).join()));

// ---- An object in a pattern

/**
 * Returns the sets of cells that are one of these images, with no other live cell nearer than `gap` allows.
 * @type {(cells: Cells, images: Steps[], gap: number) => Cells[]}
 */
const foundIn = (cells, images, gap) => {
  const around = near(gap);
  const used = new Set();
  const found = [];
  for (const steps of images) {
    for (const corner of cells) {
      if (used.has(corner) || !steps.every(step => cells.has(corner + step))) continue;
      const image = new Set(steps.map(step => corner + step));
      if ([...image].some(cell => around.some(step => cells.has(cell + step) && !image.has(cell + step)))) continue;
      image.forEach(cell => used.add(cell));
      found.push(image);
    }
  }
  return found;
};

/**
 * Returns where an object with these phases is in a pattern: as an object of its own, or else as a part of others.
 * @type {(phases: Cells[], cells: Cells) => Cells[]}
 */
export const placesOf = (phases, cells) => {
  const images = phases.flatMap(imagesOf);
  const alone = foundIn(cells, images, APART);
  return alone.length ? alone : foundIn(cells, images, PARTS_APART);
};
