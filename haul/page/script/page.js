/** Puts the page together: the controls, the list of the chosen objects, the charts, and what the address says. */
import { closeCharts, openCharts, refreshCharts, startCharts } from './charts/charts.js';
import { showControls, showCount, startControls } from './controls.js';
import { showOpen, startDialog } from './dialog/dialog.js';
import { byId } from './elements.js';
import { readAddress, writeAddress } from './model/address.js';
import { choice, choiceText, open } from './model/choice.js';
import { data, hauls, isCompared } from './model/data.js';
import { showList, showWholeList, startList } from './views/chosen.js';

const root = document.documentElement;
const found = byId('found');

const showChosen = () => {
  showControls();
  showList();
  showCount();
  refreshCharts();
};

/** @type {(changes: Partial<typeof choice>) => void} */
const choose = changes => {
  Object.assign(choice, changes);
  writeAddress();
  const isBelow = found.getBoundingClientRect().top < byId('controls').offsetHeight;
  showChosen();
  if (isBelow) found.scrollIntoView();
};

const showOpenOrUnknown = () => {
  showOpen();
  if (open.unknown) found.scrollIntoView();
};

// ---- What the window does

const listenToAddress = () => addEventListener('hashchange', () => {
  const before = choiceText();
  readAddress();
  if (choiceText() === before) showCount();
  else showChosen();
  showOpenOrUnknown();
});

/** On paper the list has all objects, whatever the width. */
const listenToWidth = () => {
  let width = innerWidth;
  addEventListener('resize', () => {
    if (innerWidth === width || matchMedia('print').matches) return;
    width = innerWidth;
    showList();
    showCount();
    refreshCharts();
  });
};

/** On paper, all objects and the charts are there. */
const listenToPrinter = () => {
  addEventListener('beforeprint', () => {
    openCharts();
    showWholeList();
  });
  addEventListener('afterprint', () => {
    closeCharts();
    showList();
    showCount();
  });
};

// ---- The start

/** Tells the style sheet what it needs to know. */
const setProperties = () => {
  root.style.setProperty('--hauls', String(hauls.length));
  // Cards of hauls that are compared have a line for what the reference says.
  root.style.setProperty('--referred', isCompared && data.reference ? '1' : '0');
  const controls = byId('controls');
  new ResizeObserver(() => root.style.setProperty('--bar', `${controls.offsetHeight}px`)).observe(controls);
};

/** Shows what is there only with scripts. */
const showSections = () => {
  const objects = byId('objects');
  const skip = /** @type {any} */ (document.querySelector('.skip'));
  objects.hidden = false;
  skip.hidden = false;
  skip.addEventListener('click', event => {
    event.preventDefault();
    objects.focus();
  });
};

startControls(choose);
setProperties();
showSections();
readAddress();
showControls();
startList(choose);
showList();
showCount();
startCharts(choose);
startDialog();
listenToAddress();
listenToWidth();
listenToPrinter();
showOpenOrUnknown();
