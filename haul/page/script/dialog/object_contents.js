/**
 * The contents of the dialog of an object.
 *
 * @import { Contents } from '../elements.js'
 * @import { Haul } from '../model/data.js'
 * @import { LifeObject } from '../model/objects.js'
 * @typedef {{ large: any, facts: any, some: Haul[] }} Block what doesn't depend on how often there is an object, and
 *   the hauls for which it is so
 */
import { element, spaced } from '../elements.js';
import { cellsOfCode, isLarge, isLinkable } from '../life/codes.js';
import { rleOf } from '../life/rle.js';
import { addressOf } from '../model/choice.js';
import { hauls, isCompared } from '../model/data.js';
import { firstWith, nameOf, recurrenceIn } from '../model/objects.js';
import { selection } from '../model/selection.js';
import { NOT_SEPARATED, kindWords, rarityWords } from '../model/words.js';
import { letterOf } from '../views/bars.js';
import { codeOf, linkOut, objectOnCatagolue, searchOnLifeWiki } from '../views/links.js';
import { pictureOf, pictureOfObject } from '../views/picture.js';
import { copyButton } from './copying.js';
import { factOf, kindFacts, partsFact, totalFacts } from './facts.js';
import { dialogHead, stepLink } from './head.js';
import { sampleList } from './samples.js';

const SIDE = 320;

// ---- The head

/**
 * Returns the object before or after this one in the list.
 * @type {(object: LifeObject | undefined, step: number) => LifeObject | undefined}
 */
export const neighbourOf = (object, step) => {
  const linked = selection.objects.filter(({ code }) => isLinkable(code));
  const at = linked.indexOf(object);
  return at < 0 ? undefined : linked[at + step];
};

/** @type {(object: LifeObject) => any} */
export const objectHead = object => {
  const before = neighbourOf(object, -1);
  const after = neighbourOf(object, 1);
  const links = [
    before && stepLink('Previous object', '‹', addressOf(before.code), nameOf(before)),
    after && stepLink('Next object', '›', addressOf(after.code), nameOf(after)),
  ];
  const mark = object.isUnsure && [' ', element('span', { class: 'tag' }, NOT_SEPARATED)];
  return dialogHead(object.label || kindWords(object), links, [codeOf(object), mark]);
};

// ---- The phases and the facts

const phaseButtons = () => element('div', { class: 'phases' },
  element('button', { type: 'button', 'data-act': 'phases' }, 'Pause'),
  element('button', { type: 'button', 'data-act': 'phase' }, 'Next phase'),
  element('span', { class: 'phase' }));

/** @type {(object: LifeObject, haul: Haul) => Block} */
const blockOf = (object, haul) => {
  const known = recurrenceIn(object, haul);
  const cells = cellsOfCode(object.code);
  const phases = known ? known.phases : [cells];
  const title = `${nameOf(object)}, ${kindWords(object)}`;
  const picture = cells ? pictureOf(phases, SIDE, title) : pictureOfObject(object, SIDE);
  const large = element('div', { class: 'large' },
    element('div', { class: 'frame' }, picture),
    phases.length > 1 && phaseButtons());
  const facts = element('dl', { class: 'facts' },
    object.also.length > 0 && factOf('other names', object.also.join(', ')),
    kindFacts(object, known),
    partsFact(object, haul),
    object.rarity.length > 0 && factOf('in the reference', rarityWords(object.rarity)),
    object.known && factOf('known elsewhere', object.known),
    !isCompared && totalFacts(object, haul));
  return { large, facts, some: [haul] };
};

/**
 * Returns a block for each rule under which an object differs.
 * @type {(object: LifeObject) => Block[]}
 */
const blocksOf = object => {
  /** @type {Block[]} */
  const blocks = [];
  for (const haul of hauls.filter(({ place }) => object.made[place] !== null)) {
    const { large, facts, some } = blockOf(object, haul);
    const same = blocks.find(one => one.large.isEqualNode(large) && one.facts.isEqualNode(facts));
    if (same) same.some.push(haul);
    else blocks.push({ large, facts, some });
  }
  return blocks;
};

// ---- The rest

/** @type {(object: LifeObject) => Contents} */
const ratesOf = object => isCompared && hauls.map(haul => [
  element('h3', {}, letterOf(haul), ` ${haul.rule}`),
  element('dl', { class: 'facts' }, totalFacts(object, haul)),
]);

/** @type {(object: LifeObject) => any} */
const actionsOf = object => {
  const { code, isNamed, label } = object;
  const isOnCatagolue = isLinkable(code) && !isLarge(code);
  // LifeWiki doesn't know labels that are made from parts.
  const isOnLifeWiki = isLinkable(code) && (isNamed || !label);
  return element('div', { class: 'actions' },
    cellsOfCode(code) && copyButton('rle', 'Copy RLE'),
    isOnCatagolue && linkOut(objectOnCatagolue(code, firstWith(object)), 'Catagolue'),
    isOnLifeWiki && linkOut(searchOnLifeWiki(object), 'LifeWiki'));
};

/**
 * Returns the RLE of an object under the rule of the first haul that has it, or nothing if it can't be drawn.
 * @type {(object: LifeObject) => string}
 */
export const rleOfObject = object => {
  const cells = cellsOfCode(object.code);
  return cells ? rleOf(cells, firstWith(object).rule) : '';
};

/** @type {(object: LifeObject) => Contents} */
const rleBlock = object => {
  const rle = rleOfObject(object);
  return rle && element('details', { class: 'rle' },
    element('summary', {}, 'RLE'),
    element('pre', { tabindex: 0, role: 'region', 'aria-label': 'RLE' }, rle));
};

/** @type {(left: Contents, right: Contents) => any} */
const columns = (left, right) => element('div', { class: 'columns' },
  element('div', {}, left),
  element('div', {}, right));

/** @type {(block: Block) => any} */
const sectionOf = ({ large, facts, some }) => element('section', { class: 'phases-of' },
  element('h3', {}, spaced(some.map(letterOf)), ` ${some[0].rule}`),
  columns(large, facts));

/**
 * Makes two columns, if there is room: the picture and the sample soups at the left, and the facts at the right, where
 * they stay beside a soup that plays.
 * @type {(object: LifeObject) => any}
 */
export const objectBody = object => {
  const below = [actionsOf(object), rleBlock(object)];
  const [first, ...others] = blocksOf(object);
  const contents = others.length
    ? [[first, ...others].map(sectionOf), columns([below, ratesOf(object)], sampleList(object))]
    : element('div', { class: 'whole' },
      element('div', {}, first.large, below),
      element('div', {}, first.facts, ratesOf(object)),
      element('div', {}, sampleList(object)));
  return element('div', { class: 'body' }, contents);
};
