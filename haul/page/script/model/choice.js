/**
 * What is chosen and what is open, and the addresses that say it.
 *
 * @import { LifeObject, Way } from './objects.js'
 */
import { data } from './data.js';

export const FIRST_CHOICE = {
  q: '', kind: '', period: '', strict: '0', parts: '1', in: '', sort: 'frequency', view: 'gallery', axis: 'log',
};
export const choice = { ...FIRST_CHOICE };

/**
 * The code that is open, and the soup that plays, such as `A39029`; or the soup of a long life. A code that isn't on
 * the page is unknown.
 */
export const open = { code: '', soup: '', unknown: '', life: '' };

/** @type {(text: string) => string[]} */
export const listed = text => text ? text.split(',') : [];

/**
 * Returns the end of an address: `&` and each choice that isn't the first one.
 * @type {() => string}
 */
export const choiceText = () => Object.entries(choice)
  .filter(([name, value]) => value !== FIRST_CHOICE[name])
  .map(([name, value]) => `&${name}=${encodeURIComponent(value).replaceAll('%2C', ',')}`)
  .join('');

/** @type {(code: string, soup?: string) => string} */
export const addressOf = (code, soup = '') => `#${code}${soup ? `&soup=${soup}` : ''}${choiceText()}`;

/** @type {(soup: string) => string} */
export const addressOfLife = soup => `#life=${soup}${choiceText()}`;

// ---- How objects are counted

export const isByParts = () => choice.parts === '1';

/** @type {() => 'parts' | 'objects'} */
export const wayName = () => isByParts() ? 'parts' : 'objects';

/** @type {(object: LifeObject) => Way} */
export const wayOf = object => object[wayName()];

/**
 * Checks whether the reference says how often there is a part.
 * @type {(object: LifeObject) => boolean}
 */
export const isReferred = ({ rarity }) => isByParts() && rarity.length > 1;

export const isByReference = () => data.reference > 0 && isByParts();
