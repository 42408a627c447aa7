/**
 * The data of the page, which stand in it as JSON.
 *
 * @import { Rule } from '../life/generations.js'
 * @typedef {object} Haul
 * @property {string} letter
 * @property {number} place its place among the hauls of the page, from 0
 * @property {string} option the rule as `census` takes it
 * @property {string} rule the rule, such as B3/S23
 * @property {Rule} life
 * @property {string} seed
 * @property {number} soups
 * @property {number | string} objects
 * @property {number | string} parts
 * @property {string[]} commands what stands before and after the number of a soup in a command
 *
 * @typedef {number | string} Total a text if it is above 2^53
 * @typedef {'not separated' | 'strict' | string[] | null} Made the parts of an object in a haul, or null if the haul
 *   doesn't have it
 */
import { ruleOf } from '../life/generations.js';

export const data = JSON.parse(document.getElementById('data').textContent);

/** @type {Haul[]} */
export const hauls = data.hauls.map((haul, place) => ({ ...haul, place, life: ruleOf(haul.rule) }));

export const isCompared = hauls.length > 1;
