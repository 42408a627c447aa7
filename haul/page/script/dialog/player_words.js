/**
 * What the player says.
 *
 * @import { Evolution } from '../life/evolution.js'
 * @import { LifeObject } from '../model/objects.js'
 * @import { Soup } from '../model/soups.js'
 */
import { nameOf, pluralOf } from '../model/objects.js';

/**
 * Returns the generation and the number of live cells. At the end, this number is compared with what `census` says.
 * @type {(soup: Soup, evolution: Evolution) => string}
 */
export const saidBy = ({ ends, settled, least, most }, evolution) => {
  const { generation } = evolution;
  const live = evolution.population();
  if (!ends) return `generation ${generation}, ${live} cells`;
  const now = `generation ${generation} of ${settled}, ${live} cells`;
  if (generation < settled) return now;
  const right = least === most ? least : `${least} to ${most}`;
  const isRight = least <= live && live <= most;
  return isRight ? `${now}: settled, as census says` : `${now}, but census says ${right}: this player is wrong`;
};

/**
 * Returns the end of what is said at the end. A long life is shown without an object.
 * @type {(object: LifeObject | null, rings: number) => string}
 */
export const endWords = (object, rings) => {
  if (!object) return '.';
  if (!rings) return `. The page doesn’t find ${nameOf(object)} in it.`;
  if (rings === 1) return `. The ring is around the ${nameOf(object)}.`;
  return `. Each of the ${rings} ${pluralOf(object)} has a ring.`;
};

/**
 * Returns why there is no end, or nothing if there is one.
 * @type {(soup: Soup) => string}
 */
export const noEndWords = ({ ends, isAsked }) => {
  if (ends) return '';
  return isAsked
    ? 'Census gives no end for this soup: it hasn’t settled, or it leaves an object that can’t be drawn.'
    : 'The page doesn’t know when this soup settles. The command below prints it.';
};
