/**
 * Phases that play in pictures.
 *
 * A picture that is watched shows its phases one after another. A reader who wants no motion sees the first phase.
 */
import { setAttribute } from '../elements.js';

const MILLISECONDS = 300;

export const stillness = matchMedia('(prefers-reduced-motion: reduce)');

/**
 * The phase that each watched picture shows.
 * @type {Map<any, number>}
 */
const watched = new Map();

/** @type {(svg: any) => boolean} */
export const isWatched = svg => watched.has(svg);

/**
 * Shows a phase, whose number may be larger than that of the last one. If there is a place beside the picture, it is
 * said there.
 * @type {(svg: any, phase: number) => void}
 */
export const showPhase = (svg, phase) => {
  const paths = svg.dataset.phases.split('|');
  const said = svg.closest('.large')?.querySelector('.phase');
  setAttribute(svg.querySelector('.live'), 'd', paths[phase % paths.length]);
  if (said) said.textContent = `phase ${phase % paths.length} (0 to ${paths.length - 1})`;
};

/** @type {(svg: any) => void} */
export const playPhases = svg => {
  watched.set(svg, 0);
};

/**
 * Plays the phases of a picture, if it has some and the reader doesn't mind.
 * @type {(svg: any) => void}
 */
export const watch = svg => {
  if (svg?.dataset.phases && !stillness.matches) playPhases(svg);
};

/** @type {(svg: any) => void} */
export const unwatch = svg => {
  if (watched.delete(svg)) showPhase(svg, 0);
};

/**
 * Stops at the phase after the one that a picture shows.
 * @type {(svg: any) => void}
 */
export const showNextPhase = svg => {
  const phase = (watched.get(svg) ?? Number(svg.dataset.phase ?? 0)) + 1;
  watched.delete(svg);
  showPhase(svg, phase);
  svg.dataset.phase = phase;
};

const turnAll = () => {
  for (const [svg, phase] of watched) {
    if (svg.isConnected) {
      watched.set(svg, phase + 1);
      showPhase(svg, phase + 1);
    } else {
      watched.delete(svg);
    }
  }
};
setInterval(turnAll, MILLISECONDS);
