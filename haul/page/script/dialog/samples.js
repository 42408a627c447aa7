/**
 * The sample soups of an object.
 *
 * @import { Contents } from '../elements.js'
 * @import { Haul } from '../model/data.js'
 * @import { LifeObject } from '../model/objects.js'
 */
import { element } from '../elements.js';
import { addressOf } from '../model/choice.js';
import { hauls, isCompared } from '../model/data.js';
import { hasSoup, samplesIn, soupOf } from '../model/soups.js';
import { letterOf } from '../views/bars.js';
import { linkOut, soupOnCatagolue } from '../views/links.js';
import { pictureOf } from '../views/picture.js';

const SIDE = 104;

/** @type {(object: LifeObject, haul: Haul, number: number) => any} */
const soupCard = (object, haul, number) => {
  const href = addressOf(object.code, haul.letter + number);
  const isPart = !object.objects.samples[haul.place].includes(number);
  const picture = pictureOf([soupOf(number, haul).cells], SIDE);
  return element('li', {},
    element('a', { class: 'soup', href, 'aria-label': `Play soup ${number}` }, picture),
    element('span', {},
      isCompared && letterOf(haul),
      ' ',
      element('a', { href }, `Soup ${number}`),
      isPart && element('small', {}, 'as a part'),
      linkOut(soupOnCatagolue(number, haul), 'on Catagolue', { class: 'elsewhere' })));
};

/** @type {(object: LifeObject, haul: Haul) => any[]} */
const soupCards = (object, haul) => samplesIn(object, haul)
  .filter(number => hasSoup(number, haul))
  .map(number => soupCard(object, haul, number));

/** @type {(object: LifeObject) => boolean} */
const hasOtherSoups = object => hauls.some(haul => samplesIn(object, haul).some(number => !hasSoup(number, haul)));

/**
 * Returns the sample soups, above the place of the player.
 * @type {(object: LifeObject) => Contents}
 */
export const sampleList = object => [
  element('h3', {}, 'Sample soups'),
  element('ul', { class: 'soups' }, hauls.map(haul => soupCards(object, haul))),
  hasOtherSoups(object) && element('p', { class: 'note' }, 'Soups with another symmetry than C1 aren’t shown.'),
  element('div', { id: 'player' }),
];
