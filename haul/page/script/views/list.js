/**
 * A long list, of which only the chunks near the screen are in the page, so that one of ten thousand objects opens and
 * scrolls at once.
 *
 *     chunk   filled    chunk   an empty box as high as its rows    chunk   ..
 *             ^ the screen and 1,200 points above and below it
 *
 * @import { LifeObject } from '../model/objects.js'
 *
 * @typedef {object} View how a list looks
 * @property {number} rows the rows of a chunk
 * @property {(count: number) => any} make makes the element that has the chunks
 * @property {() => any} chunk makes an empty chunk
 * @property {(container: any) => { columns: number, height: number }} measure measures a row
 * @property {(chunk: any, objects: LifeObject[], first: number, count: number) => void} fill
 * @property {(chunk: any, height: number) => void} empty
 *
 * @typedef {object} Chunk
 * @property {any} element
 * @property {number} first
 * @property {number} last
 * @property {number} height
 * @property {boolean} isFilled
 * @property {boolean} isNear
 */

const NEAR = '1200px 0px';
// What is seen first is there at once.
const FIRST_CHUNKS = 2;

export class LongList {
  /**
   * @param {any} container
   * @param {LifeObject[]} objects
   * @param {View} view
   */
  constructor(container, objects, view) {
    this.objects = objects;
    this.view = view;
    /** @type {Set<Chunk>} */
    this.waiting = new Set();
    const observe = seen => seen.forEach(one => this.turn(one.target.chunk, one.isIntersecting));
    const canObserve = typeof IntersectionObserver !== 'undefined';
    this.sight = canObserve ? new IntersectionObserver(observe, { rootMargin: NEAR }) : null;
    this.chunks = this.makeChunks(container);
    this.chunks.slice(0, FIRST_CHUNKS).forEach(chunk => this.fill(chunk));
  }

  /**
   * @param {any} container
   * @returns {Chunk[]}
   */
  makeChunks(container) {
    const { columns, height } = this.view.measure(container);
    const size = columns * this.view.rows;
    const chunks = [];
    for (let first = 0; first < this.objects.length; first += size) {
      const count = Math.min(size, this.objects.length - first);
      chunks.push(this.makeChunk(container, first, count, Math.ceil(count / columns) * height));
    }
    return chunks;
  }

  /**
   * @param {any} container
   * @param {number} first
   * @param {number} count
   * @param {number} height
   * @returns {Chunk}
   */
  makeChunk(container, first, count, height) {
    const element = this.view.chunk();
    const chunk = { element, first, last: first + count, height, isFilled: false, isNear: false };
    element.chunk = chunk;
    this.view.empty(element, height);
    if (!this.sight) this.fill(chunk);
    container.append(element);
    this.sight?.observe(element);
    return chunk;
  }

  /**
   * Has a chunk filled or emptied. One is turned in each frame, so that no frame takes long. At first all chunks are
   * told of, and few of them wait.
   * @param {Chunk} chunk
   * @param {boolean} isNear
   */
  turn(chunk, isNear) {
    chunk.isNear = isNear;
    if (chunk.isNear === chunk.isFilled) {
      this.waiting.delete(chunk);
      return;
    }
    this.waiting.add(chunk);
    if (this.waiting.size === 1) requestAnimationFrame(() => this.turnOne());
  }

  turnOne() {
    const waiting = [...this.waiting];
    const chunk = waiting.find(one => one.isNear) ?? waiting[0];
    if (!chunk) return;
    this.waiting.delete(chunk);
    if (chunk.isNear) this.fill(chunk);
    else this.empty(chunk);
    if (this.waiting.size) requestAnimationFrame(() => this.turnOne());
  }

  /** @param {Chunk} chunk */
  fill(chunk) {
    if (chunk.isFilled) return;
    chunk.isFilled = true;
    this.view.fill(chunk.element, this.objects.slice(chunk.first, chunk.last), chunk.first, this.objects.length);
  }

  /**
   * Empties a chunk. What has the focus stays, or the focus would be lost.
   * @param {Chunk} chunk
   */
  empty(chunk) {
    if (!chunk.isFilled || chunk.element.contains(document.activeElement)) return;
    this.view.empty(chunk.element, chunk.height);
    chunk.isFilled = false;
  }

  /** Fills all chunks, for paper. */
  fillAll() {
    this.end();
    this.chunks.forEach(chunk => this.fill(chunk));
  }

  end() {
    this.sight?.disconnect();
    this.waiting.clear();
  }
}
