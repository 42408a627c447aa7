/**
 * The charts: the twenty most frequent objects, and how the frequency of an object falls with its rank.
 *
 * Both show all parts of the page, or all objects if parts aren't counted. Neither depends on the other choices.
 *
 * @import { LifeObject } from '../model/objects.js'
 */
import { byId, element, fill } from '../elements.js';
import { choiceText, wayName } from '../model/choice.js';
import { objects } from '../model/objects.js';
import { byCode, byFrequency } from '../model/selection.js';
import { frequencyChart } from './frequencies.js';
import { rankChart } from './ranks.js';

const MOST_WIDTH = 640;
const charts = byId('charts');
const box = charts.querySelector('div');
// What is chosen, and the width of the window, when the charts were drawn.
let drawnFor = '';
let wereOpen = false;

/** @type {() => LifeObject[]} */
const ranking = () => [...objects.values()]
  .filter(({ isLeftOut }) => !isLeftOut[wayName()])
  .sort((a, b) => byFrequency(a, b) || byCode(a, b));

/** @type {(ranked: LifeObject[]) => void} */
const drawCharts = ranked => {
  const plot = element('figure');
  fill(box, frequencyChart(ranked), plot);
  // A plot as wide as its place has letters as large as those around it.
  fill(plot, rankChart(Math.min(MOST_WIDTH, plot.clientWidth || MOST_WIDTH)));
};

/** Draws the charts if they are open and something has changed. */
export const refreshCharts = () => {
  const now = `${innerWidth} ${choiceText()}`;
  const ranked = ranking();
  charts.hidden = !ranked.length;
  if (!charts.open || now === drawnFor || !ranked.length) return;
  drawnFor = now;
  drawCharts(ranked);
};

/** Opens the charts, for paper. */
export const openCharts = () => {
  wereOpen = charts.open;
  charts.open = true;
  refreshCharts();
};

/** Leaves the charts as they were before paper. */
export const closeCharts = () => {
  charts.open = wereOpen;
};

/** @type {(choose: (changes: { axis: string }) => void) => void} */
export const startCharts = choose => {
  charts.open = matchMedia('(min-width: 56rem)').matches;
  charts.addEventListener('toggle', refreshCharts);
  box.addEventListener('change', ({ target: { value } }) => {
    choose({ axis: value });
    box.querySelector(`[value=${value}]`).focus();
  });
  refreshCharts();
};
