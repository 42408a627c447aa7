/**
 * Plays a soup in a view that fits the ash or all that is alive, up to the checkpoint at which `census` says that it
 * has settled.
 *
 * @import { Box } from '../life/cells.js'
 * @import { LifeObject } from '../model/objects.js'
 * @import { Soup } from '../model/soups.js'
 */
import { fill, setAttribute } from '../elements.js';
import { boxOf } from '../life/cells.js';
import { Evolution } from '../life/evolution.js';
import { placesOf, shipsOf } from '../life/places.js';
import { objects, phasesIn, recurrenceIn } from '../model/objects.js';
import { FIRST_SPEED, playerContents } from './player_controls.js';
import { endWords, saidBy } from './player_words.js';
import { Sight, drawPattern, joined, ringBox } from './sight.js';

// A frame runs generations for at most this long.
const MOST_MILLISECONDS = 14;
// After a long frame, no more generations are made up for than those of this part of a second.
const MADE_UP = 1 / 10;
// To find the ash takes longer than to draw it, so while a soup plays, the view fits it in some frames only.
const FRAMES_TO_FIT = 8;
const ZOOM = 1.5;
/** @type {Record<string, [number, number]>} */
const STEPS_OF_KEYS = { ArrowLeft: [40, 0], ArrowRight: [-40, 0], ArrowUp: [0, 40], ArrowDown: [0, -40] };
const ZOOMS_OF_KEYS = { '+': ZOOM, '-': 1 / ZOOM };

export class Player {
  /**
   * @param {any} box the element in which it plays
   * @param {Soup} soup
   * @param {LifeObject | null} object has a ring at the end
   */
  constructor(box, soup, object) {
    this.soup = soup;
    this.object = object;
    this.evolution = new Evolution(soup.cells, soup.haul.life);
    this.ships = this.findShips();
    // The generation up to which it plays, and how fast.
    this.aim = 0;
    this.speed = FIRST_SPEED;
    this.isQuick = false;
    this.isEnded = false;
    this.frames = 0;
    /** @type {Box[]} */
    this.rings = [];
    fill(box, playerContents(soup));
    const canvas = box.querySelector('canvas');
    this.sight = new Sight(canvas);
    this.said = box.querySelector('output');
    const buttons = [...box.querySelectorAll('[data-act]')];
    this.buttons = Object.fromEntries(buttons.map(button => [button.dataset.act, button]));
    this.listenToButtons(box);
    this.listenToCanvas(canvas);
    this.findRings();
    this.sizes = new ResizeObserver(() => this.draw(true));
    this.sizes.observe(canvas);
  }

  findShips() {
    const { haul } = this.soup;
    const ships = [...objects.values()].filter(({ letter }) => letter === 'q');
    return shipsOf(ships.map(object => recurrenceIn(object, haul)).filter(known => known !== null));
  }

  // ---- What a reader does

  /** @param {any} box */
  listenToButtons(box) {
    box.querySelector('.buttons').addEventListener('click', event => {
      this.press(event.target.closest('button')?.dataset.act);
    });
    box.querySelector('select').addEventListener('change', event => {
      this.speed = Number(event.target.value);
    });
  }

  /** @param {string | undefined} act */
  press(act) {
    const acts = {
      play: () => this.playOrPause(),
      step: () => this.goTo(this.evolution.generation + 1),
      end: () => this.goTo(this.last(), true),
      back: () => this.back(),
      ring: () => this.showRing(),
      in: () => this.zoom(ZOOM),
      out: () => this.zoom(1 / ZOOM),
      ash: () => this.fit(true),
      fit: () => this.fit(false),
    };
    acts[act]?.();
  }

  /** @param {any} canvas */
  listenToCanvas(canvas) {
    canvas.addEventListener('pointerdown', event => canvas.setPointerCapture(event.pointerId));
    canvas.addEventListener('pointermove', event => {
      if (!canvas.hasPointerCapture(event.pointerId)) return;
      this.sight.pan(event.movementX, event.movementY);
      this.draw();
    });
    canvas.addEventListener('keydown', event => {
      if (this.pressKey(event.key)) event.preventDefault();
    });
  }

  /**
   * Returns whether the key does something.
   * @param {string} key
   */
  pressKey(key) {
    if (key in STEPS_OF_KEYS) this.sight.pan(...STEPS_OF_KEYS[key]);
    else if (key in ZOOMS_OF_KEYS) this.sight.zoom(ZOOMS_OF_KEYS[key]);
    else return false;
    this.draw();
    return true;
  }

  playOrPause() {
    if (this.isAtEnd()) this.back();
    this.goTo(this.isPlaying() ? this.evolution.generation : this.last());
  }

  start() {
    if (!this.isPlaying()) this.playOrPause();
  }

  back() {
    this.aim = 0;
    this.evolution.back();
    this.findRings();
    this.fit(this.sight.isOfAsh);
  }

  showRing() {
    this.sight.show(this.rings[0]);
    this.draw();
  }

  /** @param {number} factor */
  zoom(factor) {
    this.sight.zoom(factor);
    this.draw();
  }

  /** @param {boolean} isOfAsh */
  fit(isOfAsh) {
    Object.assign(this.sight, { fits: true, isOfAsh });
    this.draw(true);
  }

  end() {
    this.isEnded = true;
    this.sizes.disconnect();
  }

  // ---- How it plays

  last() {
    return this.soup.ends ? this.soup.settled : Infinity;
  }

  isPlaying() {
    return this.evolution.generation < this.aim;
  }

  isAtEnd() {
    return this.soup.ends && this.evolution.generation === this.soup.settled;
  }

  /** Finds the object. There are rings only at the end, which may be generation 0. */
  findRings() {
    this.rings = [];
    if (!this.object || !this.isAtEnd()) return;
    const places = placesOf(phasesIn(this.object, this.soup.haul), this.evolution.cells());
    this.rings = places.map(cells => boxOf([cells]));
  }

  /**
   * Goes on to a generation: at the chosen speed, or as fast as it goes.
   * @param {number} generation
   */
  goTo(generation, isQuick = false) {
    const wasPlaying = this.isPlaying();
    this.aim = Math.min(generation, this.last());
    this.isQuick = isQuick;
    if (wasPlaying) return;
    this.before = performance.now();
    this.owed = 1;
    this.go();
  }

  /** Runs the generations that are due in this frame. */
  go() {
    if (this.isEnded) return;
    const began = performance.now();
    const due = this.owed + (began - this.before) / 1000 * this.speed;
    this.owed = this.isQuick ? Infinity : Math.min(due, Math.max(1, this.speed * MADE_UP));
    this.before = began;
    while (this.owed >= 1 && this.isPlaying() && performance.now() - began < MOST_MILLISECONDS) {
      this.evolution.step();
      this.owed -= 1;
    }
    this.findRings();
    this.draw();
    if (this.isPlaying()) requestAnimationFrame(() => this.go());
  }

  // ---- How it looks

  draw(now = false) {
    this.frames += 1;
    this.fitSight(now);
    drawPattern(this.sight, this.evolution.rows, this.rings);
    this.say();
    this.showButtons();
  }

  /** @param {boolean} now */
  fitSight(now) {
    const isDue = now || !this.isPlaying() || this.frames % FRAMES_TO_FIT === 0;
    if (!this.sight.fits || !this.evolution.rows.length || !isDue) return;
    const box = this.evolution.box(this.sight.isOfAsh, this.ships);
    this.sight.fit(this.rings.map(ringBox).reduce(joined, box), now || this.isAtEnd());
  }

  /** What it says is read out only when it stands still. */
  say() {
    setAttribute(this.said, 'aria-live', this.isPlaying() ? 'off' : 'polite');
    const end = this.isAtEnd() ? endWords(this.object, this.rings.length) : '';
    this.said.textContent = saidBy(this.soup, this.evolution) + end;
  }

  /** At the end, there is no other step, and to play is to begin again. */
  showButtons() {
    const { play, step, end, ash, fit, ring } = this.buttons;
    const { fits, isOfAsh } = this.sight;
    const isAtEnd = this.isAtEnd();
    const begin = isAtEnd ? 'Play again' : 'Play';
    play.textContent = this.isPlaying() ? 'Pause' : begin;
    if (isAtEnd && [step, end].includes(document.activeElement)) play.focus();
    play.disabled = isAtEnd && !this.soup.settled;
    step.disabled = isAtEnd;
    end.disabled = isAtEnd || !this.soup.ends;
    setAttribute(ash, 'aria-pressed', String(fits && isOfAsh));
    setAttribute(fit, 'aria-pressed', String(fits && !isOfAsh));
    ring.hidden = !this.rings.length;
  }
}
